"""The fewest rows of each file of descriptions that have to end well: floors.tsv.

Its columns count the expressible rows with the right reading, alone or among several (`read`); the ambiguous rows with
all readings that an examiner would ask about (`asked`); and the refused expressible rows that become the land understood
when the advice is followed (`cured`). Each number was somewhat below the actual one when it was written. The scripts
never write it: so no change that loses many readings passes unnoticed, even if its outcomes are recorded.
"""

import pathlib

FOLDER = pathlib.Path(__file__).resolve().parent
FLOORS = FOLDER / "floors.tsv"
COLUMNS = ["file", "read", "asked", "cured"]


def floors():
    """The numbers of each file, by their columns."""
    heading, *rows = [line.split("\t") for line in FLOORS.read_text(encoding="utf-8").splitlines()]
    if heading != COLUMNS:
        raise SystemExit(f"{FLOORS}: the heading is not {' '.join(COLUMNS)}")
    return {row[0]: dict(zip(COLUMNS[1:], map(int, row[1:]))) for row in rows}


def floor_faults(path, **counts):
    """Which numbers of a file are too small, if it is a file of this folder."""
    path = pathlib.Path(path).resolve()
    if path.parent != FOLDER:
        return []
    least = floors().get(path.stem)
    if least is None:
        return [f"{FLOORS.name} has no row for {path.name}"]
    return [f"{path.name}: {count} rows are {what}, fewer than {least[what]} ({FLOORS.name})"
            for what, count in counts.items() if count < least[what]]
