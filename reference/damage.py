"""Damage to words, and hints, that are drawn: parts in the hints' spans with so many full errors, hints to tell, and hints that are taken."""
from codes import fixed
from drawing import pick, unit
from recovery import takes


def damage(kind, random, code, errors, hints):
    """A word of the given number of full errors, with parts in the hints' spans."""
    out = []
    full = [0] * len(code.lengths)
    for _ in range(errors):
        full[random.draw() % len(full)] += 1
    for (rows, columns), n, t in zip(hints, code.lengths, full):
        block = [0] * n
        for _ in range(t):
            u = unit(kind, random)
            for i in range(n):
                block[i] = kind.sum(block[i], kind.product(u, pick(random, fixed(kind))))
        for u in rows:
            for i in range(n):
                block[i] = kind.sum(block[i], kind.product(u, pick(random, fixed(kind))))
        for h in columns:
            x = random.draw() % kind.size
            for i in range(n):
                block[i] = kind.sum(block[i], kind.product(x, h[i]))
        out += block
    return out


def hinted(kind, random, code, many):
    """Hints to tell, and those of them that the rules take."""
    rows, columns, hints = [], [], [([], []) for _ in code.lengths]
    wanted = []
    for _ in range(many):
        block = 1 + random.draw() % len(code.lengths)
        n = code.lengths[block - 1]
        if random.draw() % 2:
            wanted.append(('row', block, random.draw() % kind.size))
        else:
            wanted.append(('column', block, [pick(random, fixed(kind)) for _ in range(n)]))
    for sort, block, hint in [w for w in wanted if w[0] == 'row'] + [w for w in wanted if w[0] == 'column']:
        takes(kind, code, hints, sort, block, hint)
        (columns if sort == 'column' else rows).append((block, hint))
    return rows, columns, hints


def fitting(kind, random, code, many, sorts=('row', 'column')):
    """Hints that are taken: row hints, column hints, and those of each block."""
    rows, columns, hints = [], [], [([], []) for _ in code.lengths]
    for _ in range(3 * many):
        block = 1 + random.draw() % len(code.lengths)
        sort = pick(random, sorts)
        if len(rows) + len(columns) == many:
            break
        hint = random.draw() % kind.size if sort == 'row' else [pick(random, fixed(kind)) for _ in range(code.lengths[block - 1])]
        if takes(kind, code, hints, sort, block, hint) == 'taken':
            (rows if sort == 'row' else columns).append((block, hint))
    return rows, columns, hints
