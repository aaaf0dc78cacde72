# Completion of blazes for bash: `. scripts/completion.bash` in a shell, or in ~/.bashrc.

# The names of entries of a topology: of its components, or of its sources and streams.
_blazes_names() {
    awk -v kinds="$1" '/^ *\[\[/ { of = $0 } of ~ kinds && /^ *name *=/ { gsub(/.*= *"|".*/, ""); print }' "$2" 2>/dev/null
}

# The words that can stand at this place, by the command and the words before it.
_blazes() {
    local word=${COMP_WORDS[COMP_CWORD]} command=${COMP_WORDS[1]} topology=${COMP_WORDS[2]} names= files=
    case $COMP_CWORD:$command in
        1:*) names='label derive plan run make soak shard restart witness why' ;;
        *:soak) names='--seed --count' ;;
        2:*) files='!*.toml' ;;
        3:shard) names=$(_blazes_names component "$topology") ;;
        4:make) names=--seed ;;
        3:run | 3:make | 3:restart | 3:witness | 3:why) files='!*.json' ;;
        4:run | 4:restart | 4:witness | 5:witness | 4:why) files='!*.schedule' ;;
        5:why) names=$(_blazes_names '\[(source|stream)\]' "$topology") ;;
    esac
    if [ -n "$files" ]; then
        compopt -o filenames 2>/dev/null
        mapfile -t COMPREPLY < <(compgen -f -X "$files" -- "$word"; compgen -d -- "$word")
    else
        mapfile -t COMPREPLY < <(compgen -W "$names" -- "$word")
    fi
}
complete -F _blazes blazes
