"""The lines that the program books_side_by_side must print, worked out from the rules of the allowance book.

Written apart from the engine: a book here is a fresh amount and a dictionary from end days to amounts. Run it from the
root of the repository, and compare:

    python3 bench/books_side_by_side.py | diff - crates/books_side_by_side/stdout
"""

MOST_GRANT = 1_000_000
MOST_OLD_UNITS = 2_000_000_000


class Book:
    def __init__(self, capacity):
        self.capacity = capacity
        self.fresh = 0
        self.old = {}

    def old_after(self, day):
        return sum(amount for end, amount in self.old.items() if end > day)

    def fill(self, n):
        if self.fresh != 0:
            return "refused 12 not-empty"
        if n > MOST_GRANT:
            return "refused 12 too-large"
        self.fresh = n
        return "ok"

    def draw(self, n):
        wanted = n
        for end in sorted(self.old):
            part = min(wanted, self.old[end])
            wanted -= part
            self.old[end] -= part
            if self.old[end] == 0:
                del self.old[end]
        part = min(wanted, self.fresh)
        self.fresh -= part
        return str(n - wanted + part)

    def lapse(self, day):
        gone = sum(amount for end, amount in self.old.items() if end <= day)
        self.old = {end: amount for end, amount in self.old.items() if end > day}
        return str(gone)

    def carry(self, end):
        gone = sum(self.old.values())
        self.old = {end: self.fresh} if self.fresh > 0 else {}
        self.fresh = 0
        return str(gone)

    def clear(self):
        told = f"{sum(self.old.values())} {self.fresh}"
        self.old, self.fresh = {}, 0
        return told

    def would_hold(self, old, end, cap):
        held = {}
        for day, amount in list(old.items()) + [(end, self.fresh)]:
            if amount > 0:
                day = min(day, cap)
                held[day] = held.get(day, 0) + amount
        return held

    def refusal(self, held):
        if len(held) > self.capacity:
            return "refused 12 too-many-lots"
        if sum(held.values()) > MOST_OLD_UNITS:
            return "refused 12 too-many-units"
        return None

    def set_aside(self, end, cap):
        held = self.would_hold(self.old, end, cap)
        refusal = self.refusal(held)
        if refusal is not None:
            return refusal
        self.old, self.fresh = held, 0
        return "ok"

    def set_aside_after(self, day, end, cap):
        old = {e: amount for e, amount in self.old.items() if e > day}
        return self.refusal(self.would_hold(old, end, cap)) or "ok"

    def take(self, step):
        name, *numbers = step.split()
        return getattr(self, name.replace("-", "_"))(*map(int, numbers))

    def look(self):
        return f"fresh {self.fresh} old {self.old_after(0)} {self.old_after(44)} {self.old_after(110)}"

    def shown(self, answer):
        return f"{answer} {self.look()} aside {self.set_aside_after(44, 45, 90)}"


STEPS = """
fill 500, fill 1, draw 120, carry 30, fill 1000000, draw 400, carry 60, fill 1000001, fill 0, draw 0, lapse 59, lapse 60,
draw 1, fill 700, set-aside 45 90, fill 300, set-aside 45 45, fill 200, set-aside 60 50, draw 1100, lapse 49,
set-aside 90 90, carry 31, clear,
fill 50, set-aside 90 20, fill 60, set-aside 70 10, lapse 9, lapse 10, set-aside 5 5, fill 10, carry 0, lapse 0, fill 25,
carry 31, set-aside 99 7, draw 5, fill 9, set-aside 7 100, lapse 6, draw 4294967295, clear
"""
FULL = """
set-aside 98 400, set-aside 110 400, fill 3, set-aside 98 104, draw 5, lapse 102, fill 4, draw 4, clear
"""
HOARD = """
fill 1, set-aside 70 70, draw 1, set-aside 70 70, draw 1000000, lapse 69, lapse 70, clear
"""


def listed(text):
    return [step.strip() for step in text.split(",")]


def main():
    table, small = Book(31), Book(1)
    compared = True

    def take(step, print_it):
        nonlocal compared
        of_table, of_small = table.take(step), small.take(step)
        if step == "clear":
            compared = True
        elif of_table != of_small:
            assert of_small.startswith("refused") or not compared
            compared = False
        assert not compared or (table.fresh, table.old) == (small.fresh, small.old)
        if print_it:
            verdict = "same" if compared else "apart"
            print(f"{step} | table {table.shown(of_table)} | small {small.shown(of_small)} | {verdict}")

    for step in listed(STEPS):
        take(step, True)
    for i in range(33):
        take("fill 2", True)
        take(f"set-aside {100 + i * 7 % 33} 400", True)
    for step in listed(FULL):
        take(step, True)
    for _ in range(2_000):
        take("fill 1000000", False)
        take("set-aside 70 70", False)
    for step in listed(HOARD):
        take(step, True)


main()
