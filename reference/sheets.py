#!/usr/bin/env python3
"""Sheets by their rules, in the plainest way, to hold the codec's reader against.

A sheet is taken apart with one pointer. What is wrong first is refused: a number, layer 1 and a place. Nothing is shared with
the codec.

  sheets.py DIR      writes DIR/stdin, the cases, and DIR/stdout, what the program crate sheet_checks has to print for them

A line of stdin is the kind number that is asked for and then the bytes, all in decimal.
"""
import random
import sys


class Refusal(Exception):
    pass


def judge(number, data):
    """The answer to the bytes: one line."""
    place = 0

    def pull():
        nonlocal place
        if place == len(data):
            raise Refusal(1, place)
        place += 1
        return data[place - 1]

    def hold(good, where):
        if not good:
            raise Refusal(4, where)

    def section(count):
        hold(pull() == count, place - 1)
        start = place
        return start, [pull() for _ in range(count)]

    try:
        if pull() != number:
            raise Refusal(3, 0)
        k = pull()
        count = pull()
        hold(count in range(1, 13), 2)
        lengths = []
        while len(lengths) < count:
            lengths.append(pull())
            hold(lengths[-1] in range(1, 9) and sum(lengths) in range(1, 25), place - 1)
        hold(k in range(1, sum(lengths) + 1), 1)
        parameters_at, parameters = section(count)
        locators_at, locators = section(sum(lengths))
        if place != len(data):
            raise Refusal(2, place)
    except Refusal as refusal:
        return "refused %d layer 1 place %d" % refusal.args
    words = ["ok", k, "lengths", 3, ":", *lengths, "parameters", parameters_at, ":", *parameters, "locators", locators_at, ":", *locators]
    return " ".join(map(str, words))


def sheet(number, k, lengths, parameters=None, locators=None):
    n = sum(lengths)
    parameters = parameters if parameters is not None else [(i + 1) % 256 for i in range(len(lengths))]
    locators = locators if locators is not None else [(3 * i + 1) % 256 for i in range(n)]
    return [number, k, len(lengths), *lengths, len(parameters), *parameters, len(locators), *locators]


def changed(data, place, value):
    return data[:place] + [value % 256] + data[place + 1:]


def cases():
    """Pairs of a kind number and bytes."""
    a = sheet(4, 2, [1, 1, 1, 1], [1, 2, 3, 4], [1, 1, 1, 1])
    b = sheet(2, 2, [2, 2], [1, 2], [1, 2, 1, 2])
    full = sheet(1, 24, [2] * 12)
    wide = sheet(0, 1, [8, 8, 8])
    least = sheet(255, 1, [1])
    for good in (a, b, full, wide, least):
        number = good[0]
        yield number, good
        # every truncation, and one and more bytes too many
        for i in range(len(good)):
            yield number, good[:i]
        for more in ([0], [255], [1, 2]):
            yield number, good + more
        # another kind number, with every length that still has the byte
        for i in (1, 2, len(good)):
            yield (number + 1) % 256, good[:i]
            yield (number + 128) % 256, good[:i]
        # every byte one off, and at the ends
        for i in range(len(good)):
            for value in (good[i] - 1, good[i] + 1, 0, 255):
                yield number, changed(good, i, value)
    # both sides of the limits on n, on a length, on the number of blocks and on k
    for lengths in ([8, 8, 8], [8, 8, 8, 1], [8, 8, 7, 1], [8, 8, 7, 2], [2] * 12, [2] * 11 + [3], [2] * 13, [1] * 12, [1] * 13, [8], [9],
                    [1, 9], [0], [1, 0], [8, 8, 9], [8, 8, 8, 0], [8, 8, 8, 9], [8, 9, 8], [1] * 11 + [8], [1] * 11 + [9], [3] * 8,
                    [3] * 9, [4] * 6, [4] * 7, [], [255], [255, 255]):
        n = sum(lengths)
        for k in (0, 1, n - 1, n, n + 1, 255):
            yield 3, sheet(3, k % 256, lengths, locators=[7] * (n % 256))
    # a wrong dimension waits for the lengths, and goes before all that follows
    for k in (0, 5):
        yield 4, changed(a, 1, k)
        for i in range(2, len(a)):
            yield 4, changed(a, 1, k)[:i]
        yield 4, changed(changed(a, 1, k), 6, 9)
        yield 4, changed(changed(a, 1, k), 7, 9)
        yield 5, changed(a, 1, k)
    # each count one off, with as many bytes as it says
    for by in (-1, 1):
        yield 2, sheet(2, 2, [2, 2], [1] * (2 + by), [1] * 4)
        yield 2, sheet(2, 2, [2, 2], [1] * 2, [1] * (4 + by))
        yield 2, changed(b, 2, 2 + by)
    yield 0, []
    yield 7, []
    # random sheets, and random damage to them
    chance = random.Random(20240611)
    for _ in range(300):
        lengths = []
        for _ in range(chance.randint(1, 12)):
            if sum(lengths) < 24:
                lengths.append(chance.randint(1, min(8, 24 - sum(lengths))))
        n = sum(lengths)
        number = chance.randint(0, 255)
        good = sheet(number, chance.randint(1, n), lengths, [chance.randint(0, 255) for _ in lengths], [chance.randint(0, 255) for _ in range(n)])
        kind = chance.randint(0, 5)
        if kind == 1:
            good = changed(good, chance.randrange(len(good)), chance.randint(0, 255))
        if kind == 2:
            good = changed(good, chance.randrange(3 + len(lengths)), chance.randint(0, 13))
        if kind == 3:
            good = good[:chance.randrange(len(good))]
        if kind == 4:
            good = changed(good, chance.randrange(len(good)), chance.randint(0, 25))[:chance.randint(1, len(good))]
        if kind == 5:
            good = good + [chance.randint(0, 255) for _ in range(chance.randint(0, 3))]
        yield number, good
    for _ in range(100):
        yield 1, [1] + [chance.randint(0, 12) for _ in range(chance.randint(0, 40))]


def main():
    where = sys.argv[1]
    lines = [(number, data) for number, data in cases()]
    with open(where + "/stdin", "w") as out:
        for number, data in lines:
            out.write(" ".join(map(str, [number, *data])) + "\n")
    with open(where + "/stdout", "w") as out:
        for number, data in lines:
            out.write(judge(number, data) + "\n")


if __name__ == "__main__":
    main()
