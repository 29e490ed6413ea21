#!/usr/bin/env python3
"""Skew polynomials by their definitions: values as sums over norms, products by the coefficient rule, interpolation and division
by solving linear equations. Nothing is shared with the codec.

  skew.py        prints what the program crate skew_checks has to print
"""
from fields import Mirror, kinds
from linear import solutions


class Random:
    """The generator of the program: 32 bits, the top byte is drawn."""

    def __init__(self, state):
        self.state = state

    def draw(self):
        self.state = (self.state * 1664525 + 1013904223) % 2 ** 32
        return self.state >> 24

    def row(self, kind, n):
        """Symbols, and now and then the first number that is no code."""
        return [self.draw() % min(kind.size + 1, 256) for _ in range(n)]


def twisted(kind, a, times):
    for _ in range(times):
        a = kind.twist(a)
    return kind.clip(a)


def norm(kind, i, a):
    out = 1
    for j in range(i):
        out = kind.product(twisted(kind, a, j), out)
    return out


def total(kind, xs):
    out = 0
    for x in xs:
        out = kind.sum(out, x)
    return out


def value(kind, f, a, b):
    return total(kind, [kind.product(kind.product(c, twisted(kind, b, i)), norm(kind, i, a)) for i, c in enumerate(f)])


def product(kind, f, g):
    out = [0] * (len(f) + len(g) - 1)
    for i, x in enumerate(f):
        for j, y in enumerate(g):
            out[i + j] = kind.sum(out[i + j], kind.product(x, twisted(kind, y, i)))
    return out


def powers(kind, n, a, b):
    return [kind.product(twisted(kind, b, i), norm(kind, i, a)) for i in range(n)]


def interpolate(kind, points, values):
    return solutions(kind, [powers(kind, len(points), a, b) for a, b in points], values)


def annihilator(kind, points):
    """Lowest n coefficients from the equations, and a leading one: the points are lawful."""
    n = len(points)
    rows = [powers(kind, n + 1, a, b) for a, b in points]
    return solutions(kind, [r[:n] for r in rows], [kind.opposite(r[n]) for r in rows]) + [1]


def left_quotient(kind, dividend, divisor, k):
    """Top coefficient first: place d + j of divisor × q is divisor_d × (q_j twisted d times) plus what is known."""
    divisor = [kind.clip(x) for x in divisor]
    if not any(divisor):
        return ['none']
    d = max(i for i, x in enumerate(divisor) if x)
    q = [0] * k
    for j in range(k - 1, -1, -1):
        known = product(kind, divisor, q)
        want = dividend[d + j] if d + j < len(dividend) else 0
        gap = kind.sum(want, kind.opposite(known[d + j]))
        q[j] = next(x for x in range(kind.size) if kind.product(divisor[d], twisted(kind, x, d)) == gap)
    return q


def course(kind, generator, blocks):
    points, parameter = [], 1
    for _ in range(blocks):
        points += [(parameter, b) for b in kind.basis]
        parameter = kind.product(parameter, generator)
    return points[:24]


def report(kind, generator, blocks):
    random = Random(kind.number)
    points = course(kind, generator, blocks)
    n = len(points)
    print('kind', kind.number, 'points', n)
    for _ in range(3):
        f, g = random.row(kind, n // 2 + 1), random.row(kind, n // 2)
        print('values', *[value(kind, f, a, b) for a, b in points])
        fg = product(kind, f, g)
        print('product', *fg)
        assert all(value(kind, fg, a, b) == value(kind, f, a, value(kind, g, a, b)) for a, b in points)
        print('agree', n)
        print('interpolate', *interpolate(kind, points, random.row(kind, n)))
        print('quotient', *left_quotient(kind, fg, f, n // 2))
        print('quotient', *left_quotient(kind, random.row(kind, n), f, n // 2))
    print('annihilator', *annihilator(kind, points))
    print('pairs', n, 'vanish')


if __name__ == '__main__':
    for kind, (generator, blocks) in zip(kinds(), [(2, 3), (2, 3), (3, 2), (2, 12), (2, 12)]):
        report(kind, generator, blocks)
        report(Mirror(kind), generator, blocks)
