#!/usr/bin/env python3
"""Lists the places of the design pass: `tools/places.py [FOLDER]` prints, for each point, the lines of src/ that its
patterns find in the repository at FOLDER (here by default), and how many there are. docs/DESIGN-PASS.md tells what became
of each. `-q` prints the numbers alone."""
import glob
import re
import sys

QUIET = '-q' in sys.argv
ROOT = next((a for a in sys.argv[1:] if a != '-q'), '.')

# point -> what is looked for -> pattern, tried on each line
POINTS = {
    '1 shapes, flags, numbers': {
        'own enums': r'^\s*(pub(\(crate\))? )?enum \w',
        'flags': r'-> bool\b|: bool\b',
        'numbers that a function answers, or takes for a kind': r'^\s*(pub(\(crate\))? )?(extern "C" )?fn .*-> u(8|32|64)\s*$|lots: u32|-> Option<(Kind|Service)>',
    },
    '2 twins': {
        'structs': r'^\s*(pub(\(crate\))? )?struct \w',
        'functions': r'^\s*(pub(\(crate\))? )?(const |extern "C" )*fn \w',
    },
    '3 loops': {
        'loops': r'^\s*(while|for) ',
    },
    '4 written by hand': {
        'impls of comparison, conversion, printing': r'^impl.* (PartialEq|Eq|PartialOrd|Ord|Clone|Copy|Default|From<.*>|TryFrom<.*>|fmt::Display) for ',
        'comparisons of the number inside': r'^\s*(if|while|.*&&|.*\|\|)? ?[^/{]*\.0 (<|>|<=|>=|==|!=) [\w.]',
        'matches that turn one answer into another': r'^\s*(Ok\(\w*\)|Ok\(\(\)\)|Err\(\w+\)|Some\(\w+\)|None) => (Ok|Err|Some|None|0|false|Answer|return)\b',
        'a number taken out to be printed': r'^\s*let (\w+) = [\w.]+\.(0|number|sums\.0);',
    },
    '5 repeated facts, parameters together': {
        'a line\'s tables and a room, spelled out': r'world L\.Line\.terms|world \(L\.Line\.tariff|world L\.Line',
        'bounds on a receipt': r'ensures small \{',
        'a step of a ledger': r'out \(state_of B\.Book\.means',
        'a bound on the sum of lots': r'units \(held self\.(old|now)\).*< 2 \^ 32',
        'a line beside books': r'^\s*line: L,\s*$',
        'what a run of a file promises': r'refused_file \(world',
        'outcome, line, sameness of a call': r'ensures (does|line|same|columns) \{.*self\.new',
    },
    '6 buffers with a length': {
        'lengths and counts beside memory': r'\b(len|used|left|index): (usize|u32),',
        'arrays of a fixed size': r'\[\w+; \w+\]',
    },
    '7 switches on a step': {
        'function pointers, dyn, closures': r'\bdyn \w|: fn\(|Fn\(|FnMut\(|FnOnce\(|[(=] ?(move )?\|[^|]*\|',
        'matches on which step or kind': r'match (step|cause|lots|\*self|self|call|kind|\(ledger\.status, call\))\b',
    },
}


def lines():
    for path in sorted(glob.glob(f'{ROOT}/crates/*/src/**/*.rt', recursive=True)):
        with open(path, encoding='utf-8') as f:
            for number, text in enumerate(f, 1):
                yield path[len(ROOT) + 1:], number, text.rstrip('\n')


def main():
    all_lines = list(lines())
    for point, kinds in POINTS.items():
        print(point)
        for kind, pattern in kinds.items():
            found = [(p, n, t) for p, n, t in all_lines if re.search(pattern, t) and not t.lstrip().startswith('//')]
            print(f'  {len(found):4} {kind}')
            if not QUIET:
                for p, n, t in found:
                    print(f'       {p}:{n}: {t.strip()[:150]}')


main()
