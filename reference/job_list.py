#!/usr/bin/env python3
"""Prints jobs for the program crate job_checks, one to a line, to the rules of jobs.py: good jobs at and beyond reach with all sorts of
hints, those of job_refusals.py, damage and random bytes, over every kind.

  job_list.py >../crates/job_checks/stdin
"""
from calls import dimensions, drafts
from codes import Code, encode, sheet
from damage import damage, fitting
from drawing import pick
from every_kind import EVERY
from job_lines import job, refused, say
from job_refusals import blocks, counts, extra, hints, off_by_one, other_kinds, sheets, symbols, truncated, unfit
from jobs import NUMBERS
from script import added, draw, put
from shown import A, B
from skew import Random


def recovered(kind, random, draft, k):
    data, code = sheet(kind.number, k, *draft), Code(k, *draft)
    room = code.n - k
    for many in sorted({0, 1, room // 2, room}):
        for sorts in ((('row', 'column'), ('row',), ('column',)) if many else (('row', 'column'),)):
            rows, columns, hints = fitting(kind, random, code, many, sorts)
            reach = (room - len(rows) - len(columns)) // 2
            sent = encode(kind, code, draw(kind, random, k))
            say(job(data, sent, rows, columns))
            for errors in (0, reach, reach, reach + 1):
                say(job(data, added(kind, sent, damage(kind, random, code, errors, hints)), rows, columns))
            say(job(data, draw(kind, random, code.n), rows, columns))
    # hints that the rules may refuse, in any place
    for many in (1, 2, room + 1):
        rows = [(1 + random.draw() % len(code.lengths), random.draw() % kind.size) for _ in range(min(many, 24))]
        columns = [(b, draw(kind, random, code.lengths[b - 1])) for b, u in rows]
        say(job(data, draw(kind, random, code.n), rows, columns))
        say(job(data, draw(kind, random, code.n), rows[1:], columns[:1]))


# Damage, and random bytes.


def damaged(random, good, many):
    for _ in range(many):
        bad = list(good)
        for _ in range(1 + random.draw() % 3):
            bad[random.draw() % len(bad)] = pick(random, (random.draw(), random.draw() % 13, random.draw() % 26))
        if random.draw() % 4 == 0:
            del bad[random.draw() % len(bad)]
        if random.draw() % 4 == 0:
            bad.insert(random.draw() % len(bad), random.draw() % 13)
        say(bad)


def noise(number, random, many):
    for _ in range(many):
        say([number] + [random.draw() % 13 for _ in range(random.draw() % 40)])
        say([random.draw() for _ in range(random.draw() % 40)])
        lengths = [1 + random.draw() % 2 for _ in range(1 + random.draw() % 4)]
        data = sheet(number, 1, lengths, [1 + random.draw() % 12 for _ in lengths], [1 + random.draw() % 8 for _ in range(sum(lengths))])
        say(data + [sum(lengths)] + [random.draw() % 5 for _ in range(random.draw() % 20)])


def longest(number):
    """24 symbols, which no kind here has a code for, but of which a job may speak."""
    for lengths in ([8, 8, 8], [2] * 12) if number < 128 else ([6] * 4, [1] * 11 + [8]):
        n = sum(lengths)
        data = sheet(number, 1, lengths, [1 + i for i in range(len(lengths))], [1 + i for i in range(n)])
        word, rows, columns = [0] * n, [(1, 1), (len(lengths), 2)], [(1, [1] * lengths[0]), (len(lengths), [0] * lengths[-1])]
        good = job(data, word, rows, columns)
        say(good)
        for i in (len(data) - 1, len(data), len(data) + 1, len(data) + n, len(data) + n + 1, len(data) + n + 2, len(good) - 1):
            refused(1, 1 if i < len(data) else 4, i, good[:i])
        extra(good)
        say(job(data, word + [0], rows, columns))
        say(job(data, word[1:], rows, columns))
        blocks(data, word, rows, columns)
        for many in (24, 25):
            say(job(data, word, [rows[0]] * many, [columns[-1]] * many))
            say(job(data, word, [], [columns[0]] * many))
            say(job(data, word, [rows[1]] * many) + [0])


def documents():
    word = [8, 12, 1, 4]
    say([])
    for x in range(13):
        say(job(A, put(word, 2, x)))
        for block in (1, 2, 3, 4):
            say(job(A, put(word, 2, x), [], [(block, [1])]))
            say(job(A, put(word, 2, x), [(block, 1 + x % 12)], [(1, [1])]))
    for x in range(16):
        say(job(B, [8, 5, 0, x]))
        say(job(B, [8, 5, x, x], [(1 + x % 2, x)]))
        say(job(B, [x, 5, x, 0], [], [(1 + x % 2, [x % 4, 1])]))
    good = job(A, word, [(1, 5)], [(4, [2])])
    other_kinds(good, range(256))
    truncated(good)


def main():
    documents()
    for number in NUMBERS:
        kind, random = EVERY[number], Random(number + 500)
        ds = drafts(number, random, 2)
        for draft in ds:
            for k in dimensions(len(draft[2])):
                recovered(kind, random, draft, k)
        sheets(number)
        longest(number)
        draft = ds[0]
        n = len(draft[2])
        for k in (1, n // 2, n):
            hints(kind, random, draft, k)
        unfit(kind, draft, n // 2)
        k = n // 2
        data, code = sheet(number, k, *draft), Code(k, *draft)
        rows, columns, taken = fitting(kind, random, code, 4)
        while len(rows) < 2 or not columns:
            rows, columns, taken = fitting(kind, random, code, min(n - k, 4))
        sent = encode(kind, code, draw(kind, random, k))
        good = job(data, added(kind, sent, damage(kind, random, code, 0, taken)), rows, columns)
        say(good)
        truncated(good)
        extra(good)
        off_by_one(good)
        other_kinds(good, (0, 5, 6, 72, 127, 128, 133, 200, 255, *NUMBERS))
        counts(data, sent, rows, columns)
        blocks(data, sent, rows, columns)
        symbols(kind, data, sent)
        damaged(random, good, 60)
        noise(number, random, 20)


if __name__ == '__main__':
    main()
