#!/usr/bin/env python3
"""Codes by their definitions: conjugacy by trying every element, dependence and rank by listing all combinations with fixed
coefficients, codewords by values as sums over norms, messages and dual locators by solving linear equations, syndromes as sums over
norms of the mirror. Nothing is shared with the codec.

  codes.py       prints what the program crate code_checks has to print; the cases stand in code_cases.py, the last of them in figures.py
  codes.py tour  prints what the program crate tour has to print; it stands in tours.py
"""
import sys

from fields import Mirror, kinds
from linear import solutions
from sheets import judge as read
from skew import norm, powers, total, twisted, value


def fixed(kind):
    if not hasattr(kind, 'stays'):
        kind.stays = [a for a in range(kind.size) if kind.twist(a) == a]
    return kind.stays


def grown(kind, span, x):
    """All that is an element of the span plus a fixed multiple of x."""
    return {kind.sum(s, kind.product(d, x)) for s in span for d in fixed(kind)}


def rank(kind, row):
    span, count = {0}, 0
    for x in row:
        if kind.clip(x) not in span:
            span, count = grown(kind, span, x), count + 1
    return count


def cut(lengths, row):
    out, at = [], 0
    for n in lengths:
        out.append(row[at:at + n])
        at += n
    return out


def weight(kind, lengths, word):
    if sum(lengths) != len(word):
        return None
    return sum(rank(kind, block) for block in cut(lengths, word))


def moved(kind, c, a):
    return kind.product(kind.product(kind.twist(c), a), kind.inverse(c))


def conjugates(kind, a):
    return {moved(kind, c, a) for c in range(1, kind.size)}


class Code:
    def __init__(self, k, lengths, parameters, locators):
        self.k, self.lengths, self.parameters, self.locators = k, lengths, parameters, locators
        self.points = [(a, b) for a, block in zip(parameters, cut(lengths, locators)) for b in block]
        self.n = len(locators)


def unfit(kind, code, parameters_at, locators_at):
    """Number and place of the refusal of a sheet that reads well, if there is one."""
    for i, a in enumerate(code.parameters):
        if a == 0 or a >= kind.size:
            return 5, parameters_at + i
    for i, b in enumerate(code.locators):
        if b >= kind.size:
            return 5, locators_at + i
    for j, a in enumerate(code.parameters):
        if any(a in conjugates(kind, c) for c in code.parameters[:j]):
            return 6, parameters_at + j
    at = locators_at
    for block in cut(code.lengths, code.locators):
        span = {0}
        for b in block:
            if b in span:
                return 7, at
            span = grown(kind, span, b)
            at += 1
    return None


def judge(kind, data):
    """The code and the line that is printed; a line alone for a refusal."""
    answer = read(kind.number, data)
    if answer.startswith('refused'):
        return None, answer
    k, count = data[1], data[2]
    lengths, parameters, locators = data[3:3 + count], data[4 + count:4 + 2 * count], data[5 + 2 * count:]
    code = Code(k, lengths, parameters, locators)
    bad = unfit(kind, code, 4 + count, 5 + 2 * count)
    if bad:
        return None, 'refused %d layer 2 place %d' % bad
    line = ['code', code.k, 'lengths', *lengths, 'points', *['%d:%d' % p for p in code.points]]
    return code, ' '.join(map(str, line))


def sheet(number, k, lengths, parameters, locators):
    return [number, k, len(lengths), *lengths, len(parameters), *parameters, len(locators), *locators]


def encode(kind, code, message):
    return [value(kind, message, a, b) for a, b in code.points]


def message(kind, code, word):
    if len(word) != code.n:
        return None
    return solutions(kind, [powers(kind, code.k, a, b) for a, b in code.points], word)


def dual_locators(kind, points):
    """Unknown are all but the first, which is 1."""
    if not points:
        return None
    n = len(points)
    terms = [powers(kind, n - 1, a, b) for a, b in points]
    rows = [[terms[p][i] for p in range(1, n)] for i in range(n - 1)]
    return [1] + solutions(kind, rows, [kind.opposite(terms[0][i]) for i in range(n - 1)])


def syndromes(kind, points, duals, k, word):
    if len(duals) != len(points) or len(word) != len(points) or k > len(points):
        return None
    mirror = Mirror(kind)
    out = []
    for j in range(len(points) - k):
        terms = [kind.product(twisted(mirror, d, j), norm(mirror, j, kind.untwist(a))) for (a, b), d in zip(points, duals)]
        out.append(product_sum(kind, word, terms))
    return out


def product_sum(kind, a, b):
    return total(kind, [kind.product(x, y) for x, y in zip(a, b)])


def main():
    # these stand on the definitions above
    import code_cases
    import tours
    if sys.argv[1:] == ['tour']:
        tours.tour(kinds()[3])
    else:
        code_cases.main()


if __name__ == '__main__':
    main()
