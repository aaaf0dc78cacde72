"""The values that data may hold (docs/formats.md, Data)."""
import json

FEWEST, MOST = -(1 << 63), (1 << 63) - 1
MOST_BYTES = 64


def fault_of(value, kind="any"):
    """What is wrong with a value in a column of a type, or nothing."""
    if isinstance(value, float):
        return f"{value} is a float: send integers of a smaller unit, as cents"
    if isinstance(value, bool) or value is None or isinstance(value, (list, dict)):
        cure = ": send 0 and 1" if isinstance(value, bool) else ""
        return f"{json.dumps(value, ensure_ascii=False)} is neither an integer nor a text{cure}"
    shown = json.dumps(value, ensure_ascii=False)
    if isinstance(value, int) and not FEWEST <= value <= MOST:
        return f"{shown} doesn't fit 64 bits"
    if isinstance(value, str) and len(value.encode(errors="replace")) > MOST_BYTES:
        return f"a text of {len(value.encode(errors='replace'))} bytes, and {MOST_BYTES} are the most"
    if kind != "any" and isinstance(value, int) != (kind == "int"):
        return f"{shown} isn't of the type {kind}"
    return None


def fault_of_row(row, columns, types):
    """What is wrong with a row of some columns, or nothing."""
    if not isinstance(row, list):
        return f"a row is a list with a value for each column: {', '.join(columns)}"
    if len(row) != len(columns):
        return f"there {'is 1 value' if len(row) == 1 else f'are {len(row)} values'} here, and the columns are {', '.join(columns)}"
    faults = [(name, fault_of(value, kind)) for name, value, kind in zip(columns, row, types)]
    return next((f"{name}: {fault}" for name, fault in faults if fault), None)
