"""Writes the event files of crates/statement_runs, and the statements that they must have.

The files are made from the lists below; each statement is reckoned by reckoned_account.py. Run it in the root of the
repository: it writes data/, args and stdout of that crate.
"""

import datetime
import struct

import event_files
from event_files import ABROAD, MEGABYTES, MESSAGES, MINUTES
from reckoned_account import FIRST_DAY, Account, Refusal, date_of

FOLDER = "crates/statement_runs"
TABLE_LOTS, SMALL_LOTS = 31, 1


def at(year, month, day, hour=0, minute=0):
    days = (datetime.date(year, month, day) - FIRST_DAY).days
    return days * 1_440 + hour * 60 + minute


# A record is a moment, the name of its call and the call's words; or bytes, as they stand in the file.
def as_bytes(record):
    if isinstance(record, bytes):
        return record
    moment, name, *words = record
    make = {
        "top_up": event_files.top_up,
        "use": event_files.use,
        "restart": event_files.restart,
        "switch": event_files.switch,
        "turn_on_option": event_files.option,
        "mark_day": event_files.day_mark,
    }[name]
    return make(moment, *words)


def statement(plan, opened, records, most_lots):
    try:
        account = Account(plan, opened, most_lots)
    except Refusal as refusal:
        return f"refused {refusal.args[0]}\n"
    lines = ""
    for index, record in enumerate(records):
        number = fees = charges = entries = 0
        if isinstance(record, bytes):
            number = 14
        else:
            try:
                account = account.call(*record)
                fees, charges, entries = account.fees, account.charges, account.entries
            except Refusal as refusal:
                number = refusal.args[0]
        lines += f"{index} {number} {fees} {charges} {entries} {account.balance}\n"
    return lines + ("blocked\n" if account.due is None else f"due {date_of(account.due)}\n")


def read(file):
    """The plan, the opening moment and the records of a file; None where the file is wrong."""
    if not 16 <= len(file) <= 65_536:
        return None
    first, count, plan, spare, more, opened = struct.unpack("<IIBBHI", file[-16:])
    if spare or more or first + 16 * count != len(file) - 16:
        return None
    return plan, opened, [read_record(file[first + 16 * k : first + 16 * k + 16]) for k in range(count)]


def read_record(record):
    """A record as a moment, a call and its words; the bytes themselves where the record is wrong."""
    kind, code, spare, amount, moment, more = struct.unpack("<BBHIII", record)
    unused = {1: code, 2: 0, 3: code or amount, 4: amount, 5: code or amount, 6: code or amount}
    if spare or more or unused.get(kind, 1):
        return record
    return (
        moment,
        *{
            1: ("top_up", amount),
            2: ("use", code, amount),
            3: ("restart",),
            4: ("switch", code),
            5: ("turn_on_option",),
            6: ("mark_day",),
        }[kind],
    )


def as_read(file, most_lots=TABLE_LOTS):
    found = read(file)
    return (file, statement(*found, most_lots)) if found else wrong(file)


def damaged(file):
    """The file with each byte of its last record and of its trailer changed in turn."""
    for place in range(len(file) - 32, len(file)):
        yield file[:place] + bytes([file[place] ^ 1]) + file[place + 1 :]


def right(plan, opened, records, before=b"", most_lots=TABLE_LOTS):
    file = event_files.event_file(plan, opened, [as_bytes(record) for record in records], before)
    return file, statement(plan, opened, records, most_lots)


def wrong(file):
    return file, "refused 13\n"


ONE_RECORD = right(1, 0, [(0, "top_up", 20_000)])[0]

THREE_YEARS = [
    (at(2023, 1, 31, 9), "top_up", 600_000),
    (at(2023, 2, 27, 23, 59), "mark_day"),
    (at(2023, 2, 28), "mark_day"),
    (at(2023, 3, 1), "use", MESSAGES, 1_000),
    (at(2023, 3, 30, 23, 59), "mark_day"),
    (at(2023, 3, 31), "mark_day"),
    (at(2023, 4, 30, 12), "use", MEGABYTES, 10_241),
    (at(2023, 4, 30, 12), "use", MEGABYTES, 10_240),
    (at(2023, 4, 30, 13), "use", MEGABYTES, 1),
    (at(2024, 2, 28, 23, 59), "mark_day"),
    (at(2024, 2, 29), "use", MINUTES, 90_001),
    (at(2025, 2, 27, 23, 59), "mark_day"),
    (at(2025, 2, 28), "mark_day"),
    (at(2025, 7, 31), "use", ABROAD, 1),
    (at(2025, 8, 31), "mark_day"),
    (at(2025, 9, 1), "turn_on_option"),
    (at(2025, 9, 1), "top_up", 41_000),
    (at(2025, 10, 1), "top_up", 0),
    (at(2025, 11, 1), "top_up", 20_000),
    (at(2026, 1, 31), "use", MESSAGES, 1),
    (at(2026, 1, 31), "top_up", 1),
    (at(2026, 2, 28), "mark_day"),
]

# anchor 31; at 00:00 of 28 February the due day goes first, unpaid, and the top-up starts anew with anchor 28
LATE_TOP_UP = [
    (at(2023, 1, 31), "top_up", 20_000),
    (at(2023, 2, 28), "top_up", 20_000),
    (at(2023, 3, 27, 23, 59), "mark_day"),
]

TIMELY_TOP_UP = [
    (at(2023, 1, 31), "top_up", 20_000),
    (at(2023, 2, 27, 23, 59), "top_up", 20_000),
    (at(2023, 2, 28), "mark_day"),
]

OLD_LOTS = [
    (at(2023, 3, 10), "top_up", 80_000),
    (at(2023, 3, 11), "use", MEGABYTES, 1_120),
    (at(2023, 4, 11), "use", MEGABYTES, 5_000),
    (at(2023, 5, 10), "use", MEGABYTES, 9_241),
    (at(2023, 5, 10), "use", MEGABYTES, 9_240),
    (at(2023, 5, 10), "turn_on_option"),
    (at(2023, 5, 10), "use", MEGABYTES, 2),
    (at(2023, 6, 10), "use", MEGABYTES, 5_121),
]

EVERY_REFUSAL = [
    (600, "use", MINUTES, 1),
    (600, "turn_on_option"),
    (599, "mark_day"),
    (600, "top_up", 0),
    (600, "top_up", 10_000_001),
    (600, "top_up", 19_999),
    (599, "top_up", 1),
    (600, "top_up", 1),
    (599, "turn_on_option"),
    (52_596_000, "turn_on_option"),
    (52_596_000, "top_up", 1),
    (52_596_000, "use", MINUTES, 0),
    (52_596_000, "mark_day"),
    (599, "use", MINUTES, 0),
    (600, "use", 9, 0),
    (600, "use", 9, 1),
    (600, "use", 0, 1),
    (600, "use", MINUTES, 1_000_001),
    (600, "use", MEGABYTES, 5_121),
    (600, "use", MEGABYTES, 5_120),
    (600, "use", MEGABYTES, 1),
    (600, "turn_on_option"),
    (600, "use", MEGABYTES, 1),
    (600, "top_up", 50),
    (600, "use", MEGABYTES, 2),
    (600, "use", MEGABYTES, 1),
    (600, "use", ABROAD, 1_000_000),
    (600, "mark_day"),
]

FULL = [(1_440, "top_up", 10_000_000)] * 100 + [
    (1_440, "top_up", 20_001),
    (1_440, "top_up", 20_000),
    (1_440, "top_up", 1),
    (1_440, "use", ABROAD, 1_000_000),
    (1_440, "use", ABROAD, 999_999),
]

ONLY_MEGABYTES = [
    (0, "top_up", 61_000),
    (1, "use", MINUTES, 1),
    (1, "use", MESSAGES, 1),
    (1, "use", ABROAD, 1),
    (1, "use", MEGABYTES, 30_720),
    (1, "turn_on_option"),
    (1, "use", MEGABYTES, 41),
    (1, "use", MEGABYTES, 40),
]

WRONG_RECORDS = [
    bytes(16),
    (0, "top_up", 20_000),
    event_files.record(1, 1, 20_000, 0),
    event_files.record(6, 0, 1, 0),
    event_files.record(7, 0, 0, 52_596_000),
    struct.pack("<BBHIII", 1, 0, 1, 1, 0, 0),
    struct.pack("<BBHIII", 1, 0, 0, 1, 0, 1),
    (0, "mark_day"),
]

RESTARTS = [
    (at(2023, 5, 1, 8), "restart"),
    (at(2023, 5, 1, 9), "top_up", 200_000),
    (at(2023, 5, 1, 10), "restart"),
    (at(2023, 5, 9), "use", MESSAGES, 100),
    (at(2023, 5, 10), "restart"),
    (at(2023, 5, 11), "restart"),
    (at(2023, 5, 12), "restart"),
    (at(2023, 5, 12), "restart"),
    (at(2023, 5, 13), "use", MESSAGES, 1_900),
    (at(2023, 6, 12), "restart"),
    (at(2023, 6, 13), "restart"),
    (at(2023, 7, 13), "restart"),
    (at(2023, 8, 13), "top_up", 300_000),
    (at(2023, 9, 13), "use", MESSAGES, 1_001),
    (at(2023, 9, 14), "restart"),
    (at(2023, 9, 15), "use", MESSAGES, 1),
]

SWITCHES = [
    (at(2023, 1, 31), "switch", 21),
    (at(2023, 1, 31), "switch", 7),
    (at(2023, 1, 31), "switch", 1),
    (at(2023, 1, 31), "top_up", 20_000),
    (at(2023, 2, 27), "switch", 22),
    (at(2023, 2, 27), "top_up", 500_000),
    (at(2023, 2, 28), "switch", 11),
    (at(2023, 3, 28), "switch", 12),
    (at(2023, 3, 28), "switch", 13),
    (at(2023, 3, 29), "switch", 12),
    (at(2023, 4, 29), "use", MEGABYTES, 7_169),
    (at(2023, 4, 30), "switch", 1),
    (at(2023, 4, 30), "switch", 2),
    (at(2023, 5, 2), "switch", 21),
    (at(2023, 5, 3), "switch", 22),
    (at(2023, 5, 3), "use", MINUTES, 1),
    (at(2023, 5, 4), "switch", 15),
    (at(2023, 5, 5), "use", MINUTES, 1),
    (at(2023, 5, 6), "switch", 14),
    (at(2023, 6, 6), "switch", 14),
    (at(2023, 7, 6), "top_up", 100_000),
    (at(2023, 7, 7), "switch", 13),
    (at(2023, 12, 31), "mark_day"),
]


def decades():
    records = [(at(2001, 1, 31, 12), "top_up", 10_000_000)]
    plans = (12, 13, 14, 13, 15, 16, 11)
    for year in range(2001, 2081):
        records += [
            (at(year, 2, 28, 23, 59), "use", MINUTES, 700),
            (at(year, 3, 31), "use", MEGABYTES, 3_000),
            (at(year, 5, 10), "restart"),
            (at(year, 5, 11), "restart"),
            (at(year, 5, 12), "use", MESSAGES, 900),
            (at(year, 8, 30, 6), "switch", plans[year % 7]),
            (at(year, 8, 31, 6), "use", ABROAD, 3),
            (at(year, 12, 30), "turn_on_option"),
            (at(year, 12, 31), "use", MEGABYTES, 60_000),
        ]
        if year % 5 == 0:
            records.append((at(year, 12, 31, 23, 59), "top_up", 2_000_000))
    return records


def marked_daily(records):
    """The same calls of three years, with a day mark at the start of each day between two of them."""
    marked = []
    for record in records:
        if marked and record[0] < at(2004, 1, 1):
            for day in range(marked[-1][0] // 1_440 + 1, record[0] // 1_440 + 1):
                marked.append((day * 1_440, "mark_day"))
        marked.append(record)
    return marked


DECADES = decades()

CASES = {
    "no-records": right(1, 0, []),
    "opened-too-late": right(1, 52_596_000, [(0, "top_up", 20_000)]),
    "opened-too-late-on-no-plan": right(7, 52_596_000, []),
    "opened-at-the-last-moment": right(1, 52_595_999, [(52_595_999, "top_up", 20_000)]),
    "opened-on-plan-7": right(7, 0, [(0, "top_up", 20_000)]),
    "opened-on-plan-0": right(0, 0, []),
    "nothing": wrong(b""),
    "fifteen-bytes": wrong(ONE_RECORD[-15:]),
    "a-byte-short": wrong(ONE_RECORD[1:]),
    "a-byte-in-the-trailer": wrong(ONE_RECORD[:-7] + b"\1" + ONE_RECORD[-6:]),
    "count-that-wraps": wrong(bytes(16) + struct.pack("<IIBBHI", 16, 0x1000_0000, 1, 0, 0, 0)),
    "wrong-records": right(1, 0, WRONG_RECORDS),
    "after-five-bytes": right(1, 0, [(0, "top_up", 20_000), (1, "mark_day")], b"\xff\1\2\3\4"),
    "65536-bytes": right(21, 0, [(0, "top_up", 15_000)], bytes(range(256)) * 255 + bytes(224)),
    "65537-bytes": wrong(right(21, 0, [(0, "top_up", 15_000)], bytes(range(256)) * 255 + bytes(225))[0]),
    "three-years": right(1, at(2023, 1, 1), THREE_YEARS),
    "late-top-up": right(1, at(2023, 1, 31), LATE_TOP_UP),
    "timely-top-up": right(1, at(2023, 1, 31), TIMELY_TOP_UP),
    "old-lots": right(1, at(2023, 3, 10), OLD_LOTS),
    "a-hundred-years": right(21, 0, [(0, "top_up", 10_000_000)] * 2 + [(52_595_999, "mark_day")]),
    "every-refusal": right(1, 600, EVERY_REFUSAL),
    "full-balance": right(1, 0, FULL),
    "only-megabytes": right(22, 0, ONLY_MEGABYTES),
    "restarts": right(1, at(2023, 5, 1), RESTARTS, b"abc"),
    "switches": right(21, at(2023, 1, 31), SWITCHES),
    # on small books, with room for one old lot: 12 at the second of two Restarts with messages left on both days
    "small-restarts": right(1, at(2023, 5, 1), RESTARTS, most_lots=SMALL_LOTS),
    "small-switches": right(21, at(2023, 1, 31), SWITCHES, most_lots=SMALL_LOTS),
    "small-decades": right(11, at(2001, 1, 31), DECADES, most_lots=SMALL_LOTS),
    "decades": right(11, at(2001, 1, 31), DECADES),
    "decades-marked-daily": right(11, at(2001, 1, 31), marked_daily(DECADES)),
}

# each byte of the layout damaged in turn: of a record that uses byte 1 and the amount, and of one that uses neither
for kind, record in {"use": (900, "use", MESSAGES, 70), "restart": (1_500, "restart")}.items():
    whole = right(1, 600, [(700, "top_up", 90_000), record])[0]
    for place, file in enumerate(damaged(whole)):
        CASES[f"{kind}-damaged-at-{place}"] = as_read(file)


def main():
    assert len(CASES["65536-bytes"][0]) == 65_536 and len(CASES["65537-bytes"][0]) == 65_537
    for name, (file, lines) in CASES.items():
        assert as_read(file, SMALL_LOTS if name.startswith("small-") else TABLE_LOTS)[1] == lines
    event_files.write_crate(FOLDER, CASES)


if __name__ == "__main__":
    main()
