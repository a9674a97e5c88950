"""Writes event files from readable lists of records.

Run it in the root of the repository: it writes samples/worked.events, and the same bytes to crates/statement/stdin.
"""

import os
import struct

MINUTES, MEGABYTES, MESSAGES, ABROAD = 1, 2, 3, 4


def record(kind, byte, amount, moment):
    return struct.pack("<BBHIII", kind, byte, 0, amount, moment, 0)


def top_up(moment, sums):
    return record(1, 0, sums, moment)


def use(moment, service, count):
    return record(2, service, count, moment)


def restart(moment):
    return record(3, 0, 0, moment)


def switch(moment, plan):
    return record(4, plan, 0, moment)


def option(moment):
    return record(5, 0, 0, moment)


def day_mark(moment):
    return record(6, 0, 0, moment)


def event_file(plan, moment, records, before=b""):
    trailer = struct.pack("<IIBBHI", len(before), len(records), plan, 0, 0, moment)
    return before + b"".join(records) + trailer


def write_crate(folder, cases):
    """Writes data/, args and stdout of a program's crate from its cases: a name, a file, and what is printed of it."""
    os.makedirs(f"{folder}/data", exist_ok=True)
    for name, (file, _) in cases.items():
        with open(f"{folder}/data/{name}", "wb") as out:
            out.write(file)
    with open(f"{folder}/args", "w") as out:
        out.write("".join(f"{name}\n" for name in cases))
    with open(f"{folder}/stdout", "w") as out:
        out.write("".join(f"{name}\n{lines}" for name, (_, lines) in cases.items()))


WORKED = event_file(
    21,
    0,
    [
        top_up(600, 20_000),
        use(700, MEGABYTES, 600),
        option(701),
        use(702, MEGABYTES, 600),
        day_mark(44_640),
    ],
)


def main():
    for path in ("samples/worked.events", "crates/statement/stdin"):
        with open(path, "wb") as file:
            file.write(WORKED)


if __name__ == "__main__":
    main()
