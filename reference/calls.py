#!/usr/bin/env python3
"""Prints lists of calls for the program crate station_checks, one call to a line, to the rules of station.py: every call in every state,
limits, histories, and long lists, over every kind.

  calls.py >../crates/station_checks/stdin
"""
from codes import sheet
from drawing import drawn, pick
from every_call import every_call
from every_kind import EVERY
from histories import equivalent, left_over, overlapping, reach, turned
from limits import far, limits
from long_lists import long_list
from script import Script
from skew import Random
from station_rules import HELD, READY, SOLVED

# For each kind a generator, of which the powers are not conjugate for as many blocks as there may be.
PLANS = {1: (2, 3), 2: (2, 3), 3: (3, 2), 4: (2, 12), 200: (2, 12), 129: (2, 3), 130: (2, 3), 131: (3, 2), 132: (2, 12), 72: (2, 12)}


def drafts(number, random, more):
    """Blocks of full length, as many as there may be; one symbol alone; and others."""
    kind, (generator, most) = EVERY[number], PLANS[number]
    out = [drawn(kind, generator, random, most, True), ([1], [generator], [1])]
    return out + [drawn(kind, generator, random, 1 + random.draw() % most, False) for _ in range(more)]


def dimensions(n):
    return sorted({1, max(n // 2, 1), max(n - 2, 1), n})


def main():
    for number, (generator, _) in PLANS.items():
        random = Random(number + 300)
        kind = EVERY[number]
        blocks = max(2, 4 // len(kind.basis))
        script = Script(sheet(number, 2, *drawn(kind, generator, random, blocks, True)))
        every_call(script, random)
        script.ready()
        far(script)
        for draft in drafts(number, random, 0):
            for k, state in zip(dimensions(len(draft[2])), (READY, HELD, SOLVED, READY)):
                limits(Script(sheet(number, k, *draft)), random, state)
        for draft in drafts(number, random, 2):
            scripts = [Script(sheet(number, k, *draft)) for k in dimensions(len(draft[2]))]
            for script in scripts:
                for history in (reach, left_over, overlapping, equivalent, turned):
                    history(script, random)
            long_list(pick(random, scripts), random, 400)


if __name__ == '__main__':
    main()
