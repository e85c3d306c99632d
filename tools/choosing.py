"""Which of a tool's tries a run does."""
import sys
from collections.abc import Callable


def chosen(tries: list[Callable], names: list[str]) -> list[Callable]:
    """Those of these names, all where none is given. Where a name is no try's the program ends: what was not tried is not told as ok."""
    unknown = set(names) - {function.__name__ for function in tries}
    if unknown:
        print(f'{sys.argv[0]}: no try is named {", ".join(sorted(unknown))}', file=sys.stderr)
        sys.exit(2)
    return [function for function in tries if not names or function.__name__ in names]
