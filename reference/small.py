"""Every word of the two small codes, with every codeword tried for it. It is run as `recovery.py small`."""
from itertools import product as choices

from codes import cut, encode, judge, rank
from fields import check
from recovery import less
from shown import A, B


def small(every):
    for data in (A, B):
        kind = every[data[0]]
        code = judge(kind, data)[0]
        books = [encode(kind, code, [a, b]) for a in range(kind.size) for b in range(kind.size)]
        ranks = {}
        counts, seen = [0, 0, 0], []
        for word in choices(range(kind.size), repeat=4):
            found = None
            for v in books:
                t = 0
                for x, y in zip(cut(code.lengths, word), cut(code.lengths, v)):
                    key = (tuple(x), tuple(y))
                    if key not in ranks:
                        ranks[key] = rank(kind, less(kind, x, y))
                    t += ranks[key]
                    if t > 1:
                        break
                if 2 * t <= code.n - code.k:
                    assert found is None
                    found = v, t
            if found is None:
                counts[2] += 1
                seen.append(255)
            else:
                counts[found[1]] += 1
                seen += found[0] + [found[1]]
        print('every word: tF 0', counts[0], 'tF 1', counts[1], 'none', counts[2], 'check', check(seen))
