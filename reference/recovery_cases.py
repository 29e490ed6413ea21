"""The cases of the program crate recovery_checks, as they are made and as they are answered: words at and beyond reach with all sorts of
hints, whole blocks given up, and every verdict on a hint, over every kind and its mirror. They are run as recovery.py.

A case is a line: the length of the sheet, the sheet, the symbols, the row hints after their number, each a block and an element, and the
column hints after theirs, each a block, a length and as many coefficients.
"""
from codes import Code, encode, judge, sheet
from damage import damage, hinted
from drawing import drawn
from fields import Mirror, kinds
from recovery import less, recover, takes
from skew import Random


def line(data, word, rows, columns):
    out = [len(data), *data, *word, len(rows)]
    for block, u in rows:
        out += [block, u]
    out.append(len(columns))
    for block, h in columns:
        out += [block, len(h), *h]
    print(*out)


def run(every, numbers):
    size, rest = numbers[0], numbers[1:]
    data, rest = rest[:size], rest[size:]
    kind = every[data[0]]
    code, text = judge(kind, data)
    assert code, text
    word, rest = rest[:code.n], rest[code.n:]
    hints = [([], []) for _ in code.lengths]
    out = []
    count, rest = rest[0], rest[1:]
    for _ in range(count):
        out.append('row ' + takes(kind, code, hints, 'row', rest[0], rest[1]))
        rest = rest[2:]
    count, rest = rest[0], rest[1:]
    for _ in range(count):
        out.append('column ' + takes(kind, code, hints, 'column', rest[0], rest[2:2 + rest[1]]))
        rest = rest[2 + rest[1]:]
    word = [kind.clip(x) for x in word]
    found = recover(kind, code, hints, word)
    if found is None:
        out.append('none')
    else:
        f, v, t = found
        out.append(' '.join(map(str, ['recovered', *v, 'message', *f, 'full', t])))
        if not any(r or c for r, c in hints):
            out.append(' '.join(map(str, ['part', *less(kind, word, v)])))
    print('; '.join(out))


def one(kind, random, draft, k):
    data = sheet(kind.number, k, *draft)
    code = Code(k, *draft)
    room = code.n - k
    for many in (0, room // 2, room, room + 2):
        rows, columns, hints = hinted(kind, random, code, many)
        spent = sum(len(r) + len(c) for r, c in hints)
        reach = (room - spent) // 2
        sent = encode(kind, code, random.row(kind, k))
        for errors in (0, reach, reach + 1):
            word = [kind.sum(x, y) for x, y in zip(sent, damage(kind, random, code, errors, hints))]
            line(data, word, rows, columns)
        # hints of one sort alone, and hints that do not fit the damage
        line(data, [kind.sum(x, y) for x, y in zip(sent, damage(kind, random, code, reach, [(r, []) for r, c in hints]))], rows, columns)
        line(data, [kind.sum(x, y) for x, y in zip(sent, damage(kind, random, code, room // 2, [([], [])] * len(hints)))], rows, columns)
        line(data, random.row(kind, code.n), rows, columns)


def whole_blocks(kind, random, draft, k):
    """Blocks that are given up entirely, by column hints or by row hints."""
    data, code = sheet(kind.number, k, *draft), Code(k, *draft)
    columns, rows, left = [], [], code.n - k
    for i, n in enumerate(code.lengths):
        if left >= n:
            columns += [(i + 1, [int(j == p) for j in range(n)]) for p in range(n)]
            left -= n
    sent = encode(kind, code, random.row(kind, k))
    spoiled = list(sent)
    at = 0
    for i, n in enumerate(code.lengths):
        if (i + 1) in {b for b, h in columns}:
            for j in range(at, at + n):
                spoiled[j] = random.draw() % kind.size
        at += n
    line(data, spoiled, [], columns)
    if len(kind.basis) <= code.n - k:
        line(data, spoiled[:code.lengths[0]] + sent[code.lengths[0]:], [(1, b) for b in kind.basis], [])


def refusals(kind, random, draft, k):
    data, code = sheet(kind.number, k, *draft), Code(k, *draft)
    word, blocks = random.row(kind, code.n), len(code.lengths)
    bad = min(kind.size, 255)
    loose = next((a for a in range(kind.size) if kind.twist(a) != a), bad)
    first = [1] * code.lengths[0]
    line(data, word, [(0, 1), (blocks + 1, 1), (255, 1), (1, bad), (1, 0), (1, 1), (1, 1)], [])
    line(data, word, [], [(0, first), (blocks + 1, first), (1, first + [1]), (1, first[:-1]), (1, [0] * len(first)), (1, first), (1, first)])
    line(data, word, [], [(1, first[:-1] + [bad]), (1, first[:-1] + [loose]), (1, [loose] + first[1:]), (blocks, [255] * code.lengths[-1])])


def cases():
    for kind, (generator, most) in zip(kinds(), [(2, 3), (2, 3), (3, 2), (2, 12), (2, 12)]):
        for k in (kind, Mirror(kind)):
            random = Random(k.number + 77)
            drafts = [drawn(k, generator, random, most, True), drawn(k, generator, random, 1, False)]
            drafts += [drawn(k, generator, random, 1 + random.draw() % most, False) for _ in range(3)]
            for draft in drafts:
                n = len(draft[2])
                for dimension in sorted({1, max(n // 2, 1), max((n + 1) // 2, 1), max(n - 1, 1), n}):
                    one(k, random, draft, dimension)
                    whole_blocks(k, random, draft, dimension)
                    refusals(k, random, draft, dimension)
