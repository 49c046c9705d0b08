#!/usr/bin/env python3
"""Sorts the must-fail edits by what the prover names first: rt must-fail | python3 tests/edits.py

It reads what `rt must-fail` or `rt ci` prints. An edit tries a promise if the first thing refused is what a function
returns (`returns`), what it leaves in lent memory (`out-..`), or a loop's invariant (`loop-..`); it tries none if that
is a bound, a callee's `requires` or a need that is gone. Prints a table of counts, and each edit that tries no promise;
ends with 1 if there is one, or an edit that was not refused.
"""
import re
import sys

TOLD = re.compile(r"must-fail (\S+)/(\S+)\.edit: (.*)")
PROMISE = re.compile(r"(returns|out|loop)(-|\b)")
NAMED = re.compile(r"error: `([^`]+)`|\(`([^`]+)`\)|`search` did not prove `([^`]+)`")


def first_named(told):
    """The name that the first error gives, or nothing."""
    found = NAMED.search(told)
    return next(name for name in found.groups() if name) if found else ""


def main():
    crates, idle = {}, []
    for line in sys.stdin:
        told = TOLD.search(line)
        if not told:
            continue
        crate, edit, said = told.groups()
        name = first_named(said)
        tried = said.startswith("refused") and bool(PROMISE.match(name))
        counts = crates.setdefault(crate, [0, 0])
        counts[not tried] += 1
        if not tried:
            idle.append(f"{crate}/{edit}: {said}")
    if not crates:
        sys.exit("tests/edits.py: no edits in what was given: rt must-fail | python3 tests/edits.py")
    print("| crate | edits that try a promise | others |")
    print("|---|---:|---:|")
    for crate, (tried, others) in sorted(crates.items()):
        print(f"| {crate} | {tried} | {others} |")
    print(f"| all | {sum(c[0] for c in crates.values())} | {sum(c[1] for c in crates.values())} |")
    for line in idle:
        print("tries no promise:", line)
    sys.exit(1 if idle else 0)


main()
