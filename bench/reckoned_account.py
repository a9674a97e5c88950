"""An account reckoned by the rules of docs/RULES.md, docs/TARIFFS.md and docs/CALENDAR.md, and by nothing of the engine.

It makes all six calls, with room for as many old lots of each unit as it is told.
"""

import calendar
import copy
import datetime

LAST_MOMENT = 52_595_999
FIRST_DAY = datetime.date(2000, 1, 1)

# code: fee, (minutes, megabytes, messages), price of each unit beyond, whether it carries, whether it is megabytes alone
PLANS = {
    1: (20_000, (45_000, 5_120, 500), 50, True, False),
    2: (35_000, (45_000, 10_240, 1_000), 50, True, False),
    3: (50_000, (45_000, 20_480, 1_500), 25, True, False),
    4: (70_000, (45_000, 35_840, 2_000), 25, True, False),
    5: (100_000, (45_000, 51_200, 2_500), 25, True, False),
    6: (150_000, (45_000, 204_800, 3_000), 25, True, False),
    11: (18_000, (1_200, 3_072, 500), 50, True, False),
    12: (30_000, (3_000, 7_168, 1_000), 50, True, False),
    13: (40_000, (45_000, 10_240, 1_500), 25, True, False),
    14: (50_000, (45_000, 13_312, 2_500), 25, True, False),
    15: (70_000, (45_000, 22_528, 4_000), 25, True, False),
    16: (100_000, (45_000, 35_840, 5_000), 25, True, False),
    21: (15_000, (1_500, 500, 1_500), 50, False, False),
    22: (60_000, (0, 30_720, 0), 25, False, True),
}
PRICE_ABROAD = 1_000
MOST_OLD_UNITS = 2_000_000_000
WIPED_BY_RESTART = (True, True, False)


def entry(source, target):
    """The price of entering a plan from another and whether units left are kept; None where no way leads there."""
    doimiy, sof = range(1, 7), range(11, 17)
    if target in doimiy:
        if source in doimiy and source != target:
            return (0, True) if source < target else (2_105, False)
        if source in sof or source == 21:
            return (0, False)
        if source == 22:
            return (2_105, False) if target <= 3 else (0, False)
    if target in sof:
        if source in sof and source != target:
            return (0, True) if source < target else (2_105, False)
        if source == 21:
            return (0, True)
        if source == 22:
            return (2_105, False) if target <= 14 else (0, True)
    if target == 21 and (source in doimiy or source in sof or source == 22):
        return (2_105, False)
    if target == 22:
        if source in (4, 5, 6):
            return (2_105, False)
        if source in (1, 2, 3) or source in sof:
            return (0, False)
        if source == 21:
            return (0, True)
    return None


# the columns of a receipt for each unit
GRANTED, WITHIN, BEYOND, ENDED, LATE, BY_RESTART, BY_SWITCH = range(7)


class Refusal(Exception):
    """A refusal, with its number."""


def refuse_if(failed, number):
    if failed:
        raise Refusal(number)


def date_of(day):
    return FIRST_DAY + datetime.timedelta(days=day)


def due_after(day, anchor):
    date = date_of(day)
    year, month = (date.year, date.month + 1) if date.month < 12 else (date.year + 1, 1)
    last = calendar.monthrange(year, month)[1]
    return (datetime.date(year, month, min(anchor, last)) - FIRST_DAY).days


class Account:
    def __init__(self, plan, moment, most_lots):
        refuse_if(moment > LAST_MOMENT, 1)
        refuse_if(plan not in PLANS, 4)
        self.take_plan(plan)
        self.most_lots = most_lots
        self.latest = moment
        self.balance = 0
        self.due = None
        self.anchor = None
        self.last_fee = None
        self.option = False
        self.fresh = [0, 0, 0]
        self.lots = [[], [], []]
        self.clear_receipt()

    def clear_receipt(self):
        self.fees = self.charges = self.entries = 0
        self.columns = [[0] * 7 for _ in range(3)]

    def tell(self, column, counts):
        for unit in range(3):
            self.columns[unit][column] += counts[unit]

    def old(self):
        return [sum(amount for amount, _ in lots) for lots in self.lots]

    def take_plan(self, plan):
        self.plan = plan
        self.fee, self.amounts, self.beyond, self.carries, self.megabytes_alone = PLANS[plan]

    def take_fee(self, day):
        self.balance -= self.fee
        self.fees += self.fee
        self.last_fee = day
        self.due = due_after(day, self.anchor)
        self.option = False
        self.fresh = list(self.amounts)
        self.tell(GRANTED, self.amounts)

    def handle(self, day):
        self.tell(ENDED, self.old())
        if self.balance < self.fee:
            self.tell(LATE, self.fresh)
            self.due = None
            self.fresh, self.lots = [0, 0, 0], [[], [], []]
            return
        if self.carries:
            end = due_after(day, self.anchor)
            self.lots = [[(amount, end)] if amount else [] for amount in self.fresh]
        else:
            self.tell(ENDED, self.fresh)
            self.lots = [[], [], []]
        self.take_fee(day)

    def bring_up(self, day):
        while self.due is not None and self.due <= day:
            self.handle(self.due)
        before = self.old()
        self.lots = [[(amount, end) for amount, end in lots if end > day] for lots in self.lots]
        self.tell(ENDED, [was - now for was, now in zip(before, self.old())])

    def offers(self, service):
        return service == 2 or (service in (1, 3, 4) and not self.megabytes_alone)

    def left(self, unit):
        return self.fresh[unit] + sum(amount for amount, _ in self.lots[unit])

    def draw(self, unit, count):
        lots = []
        for amount, end in self.lots[unit]:
            taken = min(amount, count)
            count -= taken
            if amount > taken:
                lots.append((amount - taken, end))
        self.lots[unit] = lots
        self.fresh[unit] -= min(self.fresh[unit], count)

    def top_up(self, day, sums):
        refuse_if(not 1 <= sums <= 10_000_000, 3)
        refuse_if(self.balance + sums > 1_000_000_000, 11)
        self.balance += sums
        if self.due is None and self.balance >= self.fee:
            self.start(day)

    def start(self, day):
        self.anchor = date_of(day).day
        self.take_fee(day)

    def leave_books(self, day, wiped, column):
        """Clears the wiped units; sets the others aside until the due day, at most until the new one."""
        cap = due_after(day, date_of(day).day)
        self.tell(column, [self.left(unit) if wiped[unit] else 0 for unit in range(3)])
        for unit in range(3):
            lots = {}
            if not wiped[unit]:
                for amount, end in self.lots[unit] + [(self.fresh[unit], self.due)]:
                    if amount:
                        lots[min(end, cap)] = lots.get(min(end, cap), 0) + amount
            refuse_if(len(lots) > self.most_lots or sum(lots.values()) > MOST_OLD_UNITS, 12)
            self.lots[unit] = [(lots[end], end) for end in sorted(lots)]
            self.fresh[unit] = 0

    def restart(self, day):
        refuse_if(self.due is None, 6)
        refuse_if(self.last_fee == day, 8)
        refuse_if(self.balance < self.fee, 10)
        self.leave_books(day, WIPED_BY_RESTART, BY_RESTART)
        self.start(day)

    def switch(self, day, plan):
        refuse_if(plan not in PLANS, 4)
        way = entry(self.plan, plan)
        refuse_if(way is None, 5)
        price, kept = way
        refuse_if(self.balance < price + PLANS[plan][0], 10)
        self.balance -= price
        self.entries += price
        if self.due is not None:
            self.leave_books(day, (not kept,) * 3, BY_SWITCH)
        self.take_plan(plan)
        self.start(day)

    def use(self, day, service, count):
        refuse_if(not 1 <= count <= 1_000_000, 3)
        refuse_if(self.due is None, 6)
        refuse_if(not self.offers(service), 7)
        if service == 4:
            charge = count * PRICE_ABROAD
        else:
            left = self.left(service - 1)
            refuse_if(service == 2 and not self.option and left < count, 9)
            charge = max(0, count - left) * self.beyond
        refuse_if(self.balance < charge, 10)
        if service != 4:
            self.columns[service - 1][WITHIN] += min(count, left)
            self.columns[service - 1][BEYOND] += max(0, count - left)
            self.draw(service - 1, count)
        self.balance -= charge
        self.charges += charge

    def turn_on_option(self, day):
        refuse_if(self.due is None, 6)
        self.option = True

    def mark_day(self, day):
        pass

    def call(self, moment, name, *words):
        """The account after the call, with its fees and charges; or a Refusal, and the account is as it was."""
        refuse_if(moment > LAST_MOMENT, 1)
        refuse_if(moment < self.latest, 2)
        after = copy.deepcopy(self)
        after.clear_receipt()
        after.bring_up(moment // 1_440)
        getattr(after, name)(moment // 1_440, *words)
        after.latest = moment
        return after
