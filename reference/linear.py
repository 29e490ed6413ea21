"""Systems of linear equations over a kind, by elimination with full rows: the one solution, and what rows take to zero. Nothing is shared
with the codec."""


def clear(kind, m, r, p, c):
    """Row p goes to place r, is scaled to be 1 in column c, and multiples of it are taken from all others, which are 0 there then."""
    m[r], m[p] = m[p], m[r]
    inv = kind.inverse(m[r][c])
    m[r] = [kind.product(inv, x) for x in m[r]]
    for i in range(len(m)):
        if i != r and m[i][c]:
            minus = kind.opposite(m[i][c])
            m[i] = [kind.sum(x, kind.product(minus, y)) for x, y in zip(m[i], m[r])]


def solutions(kind, rows, wanted):
    """The one solution of a system of which the columns are independent, or None where there is none."""
    m = [[kind.clip(x) for x in row] + [kind.clip(w)] for row, w in zip(rows, wanted)]
    width = len(rows[0]) if rows else 0
    for c in range(width):
        p = next(i for i in range(c, len(m)) if m[i][c])
        clear(kind, m, c, p, c)
    if any(row[-1] for row in m[width:]):
        return None
    return [row[-1] for row in m[:width]]


def kernel(kind, rows, width):
    """Rows that span what these rows take to zero."""
    m, pivots = [list(r) for r in rows], []
    for c in range(width):
        p = next((i for i in range(len(pivots), len(m)) if m[i][c]), None)
        if p is None:
            continue
        clear(kind, m, len(pivots), p, c)
        pivots.append(c)
    out = []
    for free in range(width):
        if free in pivots:
            continue
        x = [0] * width
        x[free] = 1
        for i, c in enumerate(pivots):
            x[c] = kind.opposite(m[i][free])
        out.append(x)
    return out
