#!/usr/bin/env python3
"""Recovery with hints, by another way than the codec's. A block is turned by rows that the column hints take to zero: what is left is
neither pivots nor echelon forms. On what is left, a polynomial that is zero at the row hints and takes the errors to zero is found by
solving one dense linear system, and the message by dividing. The least number of full errors is a rank: of the turned difference
together with the row hints, less that of the row hints. For the two small codes every codeword is tried. Nothing is shared with the codec.

  recovery.py cases    prints cases for the program crate recovery_checks, one to a line; they stand in recovery_cases.py
  recovery.py          reads such cases and prints what the program has to print
  recovery.py small    tries every codeword for every word of the two small codes, and prints what the program prints of them, by small.py
  recovery.py tour     prints what the program crate rescue_tour has to print; it stands in tours.py

So the stored files of recovery_checks are made anew in this folder by

  python3 recovery.py cases >../crates/recovery_checks/stdin
  (python3 recovery.py <../crates/recovery_checks/stdin; python3 recovery.py small) >../crates/recovery_checks/stdout
"""
import sys

from codes import cut, encode, fixed, grown, rank
from linear import kernel
from skew import powers, total, twisted


def turned(kind, columns, n, row):
    """The sums of the row with each of the rows that the column hints take to zero."""
    return [total(kind, [kind.product(c, x) for c, x in zip(by, row)]) for by in kernel(kind, columns, n)]


def full_errors(kind, code, hints, difference):
    """The least number of full errors of a splitting of the difference."""
    count = 0
    for (rows, columns), n, e in zip(hints, code.lengths, cut(code.lengths, difference)):
        count += rank(kind, rows + turned(kind, columns, n, e)) - rank(kind, rows)
    return count


def quotient(kind, divisor, dividend, k):
    """The f with k coefficients for which divisor × f is the dividend, if there is one."""
    d = max(i for i, x in enumerate(divisor) if x)
    inv, f, rest = kind.inverse(divisor[d]), [0] * k, list(dividend) + [0] * (d + k)
    for j in range(k - 1, -1, -1):
        c = kind.product(rest[d + j], inv)
        for _ in range(d):
            c = kind.untwist(c)
        f[j] = c
        for i, x in enumerate(divisor):
            if x:
                rest[i + j] = kind.sum(rest[i + j], kind.opposite(kind.product(x, twisted(kind, c, i))))
    return f


def candidate(kind, code, hints, word):
    """The only message that can be in reach: N = L × f for polynomials with N(b) = L(y) at what is left, L zero at the row hints."""
    rows = sum(len(r) for r, c in hints)
    columns = sum(len(c) for r, c in hints)
    most = (code.n - code.k - rows - columns) // 2
    high, wide = rows + most + 1, rows + most + code.k
    equations = []
    for a, (us, cs), n, bs, ys in zip(code.parameters, hints, code.lengths, cut(code.lengths, code.locators), cut(code.lengths, word)):
        for b, y in zip(turned(kind, cs, n, bs), turned(kind, cs, n, ys)):
            equations.append(powers(kind, high, a, y) + [kind.opposite(x) for x in powers(kind, wide, a, b)])
        for u in us:
            equations.append(powers(kind, high, a, u) + [0] * wide)
    found = kernel(kind, equations, high + wide)
    if not found:
        return None
    left, right = found[0][:high], found[0][high:]
    if not any(left):
        return None
    return quotient(kind, left, right, code.k)


def recover(kind, code, hints, word):
    """Message, codeword and number of full errors, or None."""
    f = candidate(kind, code, hints, word)
    if f is None:
        return None
    v = encode(kind, code, f)
    t = full_errors(kind, code, hints, less(kind, word, v))
    spent = sum(len(r) + len(c) for r, c in hints)
    return (f, v, t) if 2 * t + spent <= code.n - code.k else None


def less(kind, a, b):
    return [kind.sum(x, kind.opposite(y)) for x, y in zip(a, b)]


def takes(kind, code, hints, sort, block, hint):
    """The verdict on a hint, in the order of the rules; what is taken is added."""
    if not 1 <= block <= len(code.lengths):
        return 'no block'
    rows, columns = hints[block - 1]
    if sort == 'column':
        if len(hint) != code.lengths[block - 1]:
            return 'wrong length'
        for i, c in enumerate(hint):
            if c >= kind.size or kind.twist(c) != c:
                return 'no code %d' % i
        sums = {tuple([0] * len(hint))}
        for row in columns:
            sums = {tuple(kind.sum(x, kind.product(d, y)) for x, y in zip(s, row)) for s in sums for d in fixed(kind)}
        dependent = tuple(hint) in sums
    else:
        if hint >= kind.size:
            return 'no code 0'
        span = {0}
        for u in rows:
            span = grown(kind, span, u)
        dependent = hint in span
    if dependent:
        return 'dependent'
    if sum(len(r) + len(c) for r, c in hints) >= code.n - code.k:
        return 'spent'
    (columns if sort == 'column' else rows).append(hint)
    return 'taken'


def main():
    # these stand on the definitions above
    from every_kind import EVERY
    from recovery_cases import cases, run
    from small import small
    from tours import journey
    if sys.argv[1:] == ['cases']:
        cases()
    elif sys.argv[1:] == ['small']:
        small(EVERY)
    elif sys.argv[1:] == ['tour']:
        journey(EVERY[4])
    else:
        for text in sys.stdin:
            run(EVERY, [int(x) for x in text.split()])


if __name__ == '__main__':
    main()
