// Stands between a program and the C library at the calls by which it gets memory, opens, reads and
// writes, and lets one of them go wrong. scripts/refuse-memory builds it, and loads it before the program
// (LD_PRELOAD). Two variables say what it does:
//
// FAULT='CALL NUMBER HOW': the call of this kind with this number goes wrong, counted from 1. CALL is
// alloc, open, read or write, and HOW one of
//   fails        there is no memory, no leave, no good disk or no room
//   fails-on     so it is there, and at each call of the kind behind it
//   interrupted  a signal came in between
//   short        at most one byte is moved
//   nothing      no byte is moved
//
// FAULT_CALLS=FILE: each call stands in this file, as `alloc`, `open NAME`, `read` or `write COUNT`.
#define _GNU_SOURCE
#include <errno.h>
#include <fcntl.h>
#include <stdarg.h>
#include <stdlib.h>
#include <string.h>
#include <sys/syscall.h>
#include <unistd.h>

void *__libc_malloc(size_t size);
void *__libc_realloc(void *block, size_t size);

enum call { ALLOC, OPEN, READ, WRITE, CALLS };

static const char *const names[CALLS] = {"alloc", "open", "read", "write"};

static int has_begun;
static unsigned long made[CALLS];
static int chosen = CALLS;
static unsigned long number;
static const char *how = "";
static int calls = -1;

__attribute__((constructor)) static void begin(void)
{
    const char *fault = getenv("FAULT");
    const char *file = getenv("FAULT_CALLS");
    for (int call = 0; fault != NULL && call < CALLS; call++) {
        size_t length = strlen(names[call]);
        if (strncmp(fault, names[call], length) == 0 && fault[length] == ' ') {
            char *rest;
            number = strtoul(fault + length + 1, &rest, 10);
            how = *rest == ' ' ? rest + 1 : rest;
            chosen = call;
        }
    }
    if (file != NULL)
        calls = syscall(SYS_openat, AT_FDCWD, file, O_WRONLY | O_CREAT | O_APPEND | O_CLOEXEC, 0644);
    has_begun = 1;
}

static int is(const char *word)
{
    return strcmp(how, word) == 0;
}

static void put(const char *text)
{
    syscall(SYS_write, calls, text, strlen(text));
}

// Writes the call down, with what is behind its name.
static void tell(enum call call, const char *more)
{
    if (calls < 0)
        return;
    put(names[call]);
    if (*more != 0)
        put(" ");
    put(more);
    put("\n");
}

// Counts a call, and says whether it goes wrong.
static int goes_wrong(enum call call)
{
    if (!has_begun)
        return 0;
    made[call]++;
    return (int)call == chosen && (made[call] == number || (made[call] > number && is("fails-on")));
}

static int failed(int error)
{
    errno = is("interrupted") ? EINTR : error;
    return -1;
}

void *malloc(size_t size)
{
    tell(ALLOC, "");
    if (goes_wrong(ALLOC)) {
        errno = ENOMEM;
        return NULL;
    }
    return __libc_malloc(size);
}

void *realloc(void *block, size_t size)
{
    tell(ALLOC, "");
    if (goes_wrong(ALLOC)) {
        errno = ENOMEM;
        return NULL;
    }
    return __libc_realloc(block, size);
}

int open(const char *name, int flags, ...)
{
    int mode = 0;
    if (flags & (O_CREAT | O_TMPFILE)) {
        va_list rest;
        va_start(rest, flags);
        mode = va_arg(rest, int);
        va_end(rest);
    }
    tell(OPEN, name);
    if (goes_wrong(OPEN))
        return failed(EACCES);
    return syscall(SYS_openat, AT_FDCWD, name, flags, mode);
}

ssize_t read(int file, void *into, size_t most)
{
    tell(READ, "");
    if (goes_wrong(READ)) {
        if (!is("short"))
            return failed(EIO);
        most = most < 1 ? most : 1;
    }
    return syscall(SYS_read, file, into, most);
}

ssize_t write(int file, const void *from, size_t most)
{
    char digits[24];
    char *first = digits + sizeof digits - 1;
    size_t rest = most;
    *first = 0;
    do {
        *--first = '0' + rest % 10;
        rest /= 10;
    } while (rest > 0);
    tell(WRITE, first);
    if (goes_wrong(WRITE)) {
        if (is("nothing"))
            return 0;
        if (!is("short"))
            return failed(ENOSPC);
        most = most < 1 ? most : 1;
    }
    return syscall(SYS_write, file, from, most);
}
