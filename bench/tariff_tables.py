#!/usr/bin/env python3
"""Writes what the program tariff_tables has to print, from the plans and prices typed in here by hand.

    python3 bench/tariff_tables.py > crates/tariff_tables/stdout
"""

NO_SERVICE = None

# code: (number in the name, minutes, megabytes, messages, price of a unit beyond)
PLANS = {
    1: (20, 45000, 5120, 500, 50),
    2: (35, 45000, 10240, 1000, 50),
    3: (50, 45000, 20480, 1500, 25),
    4: (70, 45000, 35840, 2000, 25),
    5: (100, 45000, 51200, 2500, 25),
    6: (150, 45000, 204800, 3000, 25),
    11: (18, 1200, 3072, 500, 50),
    12: (30, 3000, 7168, 1000, 50),
    13: (40, 45000, 10240, 1500, 25),
    14: (50, 45000, 13312, 2500, 25),
    15: (70, 45000, 22528, 4000, 25),
    16: (100, 45000, 35840, 5000, 25),
    21: (15, 1500, 500, 1500, 50),
    22: (60, NO_SERVICE, 30720, NO_SERVICE, 25),
}

DOIMIY = {1, 2, 3, 4, 5, 6}
SOF = {11, 12, 13, 14, 15, 16}

FREE, CHARGED = 0, 2105


def entry(a, b):
    """The price and the fate of what is left, or None where no way leads."""
    if a == b:
        return None
    if b in DOIMIY:
        if a in DOIMIY:
            return (FREE, "kept") if a < b else (CHARGED, "wiped")
        if a == 22:
            return (CHARGED if b in {1, 2, 3} else FREE, "wiped")
        return (FREE, "wiped")
    if b in SOF:
        if a in DOIMIY:
            return None
        if a in SOF:
            return (FREE, "kept") if a < b else (CHARGED, "wiped")
        if a == 21:
            return (FREE, "kept")
        return (FREE, "kept") if b in {15, 16} else (CHARGED, "wiped")
    if b == 21:
        return (CHARGED, "wiped")
    if a == 21:
        return (FREE, "kept")
    return (CHARGED if a in {4, 5, 6} else FREE, "wiped")


def unit_line(unit, amount, beyond, restart):
    if amount is NO_SERVICE:
        return f"  {unit}: not offered, 0 at 0, a Restart {restart} them"
    return f"  {unit}: {amount}, each beyond {beyond}, a Restart {restart} them"


def main():
    for code in range(256):
        if code not in PLANS:
            continue
        name, minutes, megabytes, messages, beyond = PLANS[code]
        print(f"plan {code}: fee {name}000")
        print(unit_line("minutes", minutes, beyond, "wipes"))
        print(unit_line("megabytes", megabytes, beyond, "wipes"))
        print(unit_line("messages", messages, beyond, "keeps"))
        print("  messages abroad: " + ("not offered, each 0" if code == 22 else "each 1000"))
        print("  what is left " + ("is carried" if code in DOIMIY | SOF else "ends"))
    print(f"{256 - len(PLANS)} codes without terms")
    for a in PLANS:
        for b in PLANS:
            found = entry(a, b)
            print(f"from {a} to {b}: " + ("none" if found is None else f"{found[0]} {found[1]}"))


main()
