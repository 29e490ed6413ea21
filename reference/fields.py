#!/usr/bin/env python3
"""Kinds of field by their definitions, in the plainest way, to hold the codec against.

A kind is a prime p, a modulus polynomial over the integers modulo p, a twist (a power) and a basis. Products are full products
of polynomials followed by long division; inverses, untwists and digits are found by trying. Nothing is shared with the codec.

  fields.py      prints what the program crate field_checks has to print
"""


class Kind:
    def __init__(self, number, p, modulus, power, basis):
        self.number, self.p, self.modulus, self.basis = number, p, modulus, basis
        self.degree = len(modulus) - 1
        self.size = p ** self.degree
        self.sums = [[self._code([(x + y) % p for x, y in zip(self._poly(a), self._poly(b))]) for b in range(self.size)] for a in range(self.size)]
        self.products = [[self._product(a, b) for b in range(self.size)] for a in range(self.size)]
        self.twists = [self._power(a, power) for a in range(self.size)]
        self.untwists = [self.twists.index(a) for a in range(self.size)]
        self.fixed = [a for a in range(self.size) if self.twists[a] == a]
        self.rows = {}
        self._combine(0, [], 0)
        assert len(self.rows) == self.size

    def _poly(self, a):
        out = []
        for _ in range(self.degree):
            out.append(a % self.p)
            a //= self.p
        return out

    def _code(self, f):
        return sum(c * self.p ** i for i, c in enumerate(f))

    def _product(self, a, b):
        f, g, p = self._poly(a), self._poly(b), self.p
        full = [0] * (2 * self.degree)
        for i, x in enumerate(f):
            for j, y in enumerate(g):
                full[i + j] = (full[i + j] + x * y) % p
        for top in range(len(full) - 1, self.degree - 1, -1):
            c = full[top]
            for i, m in enumerate(self.modulus):
                full[top - self.degree + i] = (full[top - self.degree + i] - c * m) % p
        return self._code(full[:self.degree])

    def _power(self, a, n):
        out = 1
        for _ in range(n):
            out = self.products[out][a]
        return out

    def _combine(self, j, row, value):
        if j == len(self.basis):
            assert value not in self.rows
            self.rows[value] = row
            return
        for d in self.fixed:
            self._combine(j + 1, row + [d], self.sums[value][self.products[d][self.basis[j]]])

    def clip(self, a):
        return a if a < self.size else 0

    def sum(self, a, b):
        return self.sums[self.clip(a)][self.clip(b)]

    def product(self, a, b):
        return self.products[self.clip(a)][self.clip(b)]

    def opposite(self, a):
        return self.sums[self.clip(a)].index(0)

    def inverse(self, a):
        row = self.products[self.clip(a)]
        return row.index(1) if 1 in row else None

    def twist(self, a):
        return self.twists[self.clip(a)]

    def untwist(self, a):
        return self.untwists[self.clip(a)]

    def digits(self, a):
        row = self.rows[self.clip(a)]
        return row + [0] * (8 - len(row))


class Mirror:
    def __init__(self, kind):
        self.number = kind.number + 128 if kind.number < 128 else kind.number - 128
        self.size, self.basis = kind.size, kind.basis
        self.sum, self.product, self.opposite, self.inverse, self.digits, self.clip = kind.sum, kind.product, kind.opposite, kind.inverse, kind.digits, kind.clip
        self.twist, self.untwist = kind.untwist, kind.twist


def kinds():
    """The four that ship, and the one that crate brought brings."""
    return [
        Kind(1, 2, [1, 0, 1, 1, 1, 0, 0, 0, 1], 4, [1, 2, 4, 8]),
        Kind(2, 2, [1, 1, 0, 0, 1], 4, [1, 2]),
        Kind(3, 3, [2, 1, 0, 0, 1], 3, [1, 3, 9, 27]),
        Kind(4, 13, [0, 1], 1, [1]),
        Kind(200, 2, [1, 0, 1, 1, 1, 0, 0, 0, 1], 16, [1, 2]),
    ]


class Check:
    """A check sum over bytes (FNV-1a, 32 bits)."""

    def __init__(self):
        self.value = 2166136261

    def take(self, byte):
        self.value = ((self.value ^ byte) * 16777619) % 2 ** 32


def check(values):
    c = Check()
    for v in values:
        c.take(v)
    return c.value


def report(kind):
    every = range(256)
    print('kind', kind.number, 'size', kind.size, 'width', len(kind.basis))
    print('basis', *[kind.basis[j - 1] if 1 <= j <= len(kind.basis) else 0 for j in range(10)])
    print('sum', check(kind.sum(a, b) for a in every for b in every))
    print('product', check(kind.product(a, b) for a in every for b in every))
    print('opposite', *[kind.opposite(a) for a in every])
    print('inverse', *['-' if kind.inverse(a) is None else kind.inverse(a) for a in every])
    print('twist', *[kind.twist(a) for a in every])
    print('untwist', *[kind.untwist(a) for a in every])
    print('digits', check(d for a in every for d in kind.digits(a)))


if __name__ == '__main__':
    for k in kinds():
        report(k)
        report(Mirror(k))
