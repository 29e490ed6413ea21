"""Both sides of a wanted length, for inputs and for buffers, and numbers that are no codes."""
from script import BYTE, draw, put


def no_codes(kind):
    """The first and the last number that is no code."""
    return [] if kind.size == BYTE else [kind.size, 255]


def lengths_around(n):
    """None, one less, one more."""
    return sorted({0, max(n - 1, 0), n + 1} - {n})


def rooms_around(n):
    """And as many more as a byte does not tell apart."""
    return lengths_around(n) + [n + BYTE]


def inputs(script, name, wanted, random, first=()):
    """Inputs of the lengths around the wanted one; then numbers that are no codes, at the first place and the last."""
    for length in lengths_around(wanted):
        script.refused(9, 0, name, *first, *draw(script.kind, random, length))
    good, last = draw(script.kind, random, wanted), wanted - 1
    for bad in no_codes(script.kind):
        script.refused(10, 0, name, *first, *put(good, 0, bad))
        script.refused(10, last, name, *first, *put(good, last, bad))
        script.refused(10, 0, name, *first, *put(put(good, last, 255), 0, bad))
        script.refused(9, 0, name, *first, *put(good, 0, bad), 0)


def outputs(script, name, wanted, good):
    """Buffers of the lengths around the wanted one, with a good input; and one with inputs that are wrong too."""
    rooms = rooms_around(wanted)
    for room in rooms:
        script.refused(9, 1, name, room, *good)
    for bad in no_codes(script.kind):
        script.refused(9, 1, name, rooms[-2], *put(good, len(good) - 1, bad))
    script.refused(9, 0, name, rooms[-2], *good, 0)
    script.refused(9, 0, name, rooms[0], *good[1:])
