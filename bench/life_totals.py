"""Writes the event files of crates/life_totals, and the totals and ends that they must have.

The same calls are looked at as they are, once a year and every day: totals and end are the same. Each is reckoned by
reckoned_account.py. Run it in the root of the repository: it writes data/, args and stdout of that crate.
"""

import event_files
from reckoned_account import Account, Refusal, date_of
from statement_runs import DECADES, RESTARTS, SWITCHES, TABLE_LOTS, as_bytes, at

FOLDER = "crates/life_totals"


def marked(records, moments):
    """The calls with day marks at these moments among them, none after the last call."""
    marks = [(moment, "mark_day") for moment in moments if records[0][0] <= moment <= records[-1][0]]
    return sorted(records + marks, key=lambda record: (record[0], record[1] != "mark_day"))


def yearly(records):
    return marked(records, [at(year, 1, 1) for year in range(2000, 2100)])


def daily(records, years):
    first = records[0][0] // 1_440
    return marked(records, [day * 1_440 for day in range(first, first + 366 * years)])


def totals(plan, opened, records):
    account = Account(plan, opened, TABLE_LOTS)
    sums, columns = [0, 0, 0], [[0] * 7 for _ in range(3)]
    for record in records:
        try:
            account = account.call(*record)
        except Refusal:
            continue
        sums = [a + b for a, b in zip(sums, (account.fees, account.charges, account.entries))]
        columns = [[a + b for a, b in zip(*pair)] for pair in zip(columns, account.columns)]
    lines = ["sums " + " ".join(map(str, sums))]
    for unit, column in zip(("minutes", "megabytes", "messages"), columns):
        lines.append(unit + " " + " ".join(map(str, column)))
    lines.append(f"balance {account.balance}")
    lines.append("blocked" if account.due is None else f"due {date_of(account.due)}")
    return "".join(f"{line}\n" for line in lines)


def case(plan, opened, records):
    file = event_files.event_file(plan, opened, [as_bytes(record) for record in records])
    assert len(file) <= 65_536
    return file, totals(plan, opened, records)


LIVES = {
    "decades": (11, at(2001, 1, 31), DECADES),
    "restarts": (1, at(2023, 5, 1), RESTARTS),
    "switches": (21, at(2023, 1, 31), SWITCHES),
}

CASES = {}
for name, (plan, opened, records) in LIVES.items():
    CASES[name] = case(plan, opened, records)
    CASES[f"{name}-once-a-year"] = case(plan, opened, yearly(records))
    CASES[f"{name}-every-day"] = case(plan, opened, daily(records, 8))
    assert CASES[name][1] == CASES[f"{name}-once-a-year"][1] == CASES[f"{name}-every-day"][1]


if __name__ == "__main__":
    event_files.write_crate(FOLDER, CASES)
