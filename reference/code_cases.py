"""What the program crate code_checks has to print, case by case: sheets judged, messages, weights, duals and syndromes, over every kind and
its mirror. It is run as codes.py."""
from codes import dual_locators, encode, fixed, judge, message, moved, product_sum, rank, sheet, syndromes, weight
from drawing import drawn, unit
from fields import Mirror, kinds
from figures import figures
from shown import judged, number, put, show, spoiled
from skew import Random, norm


def judging(kind, generator, blocks):
    w = len(kind.basis)
    n = blocks * w
    parameters = [1]
    while len(parameters) < blocks:
        parameters.append(kind.product(parameters[-1], generator))
    good = sheet(kind.number, n, [w] * blocks, parameters, kind.basis * blocks)
    p0, p1, b0, b1 = 4 + blocks, 3 + 2 * blocks, 5 + 2 * blocks, 4 + 2 * blocks + n
    bad = min(kind.size, 255)
    cases = [good, good[:-1], good + [0], put(good, (0, kind.number ^ 128)), put(good, (1, 0)), put(good, (1, n + 1)), []]
    cases += [put(good, (place, x)) for place, x in ((p0, 0), (p1, 0), (p0, bad), (p1, bad), (b0, bad), (b1, bad), (p0, 255), (b1, 255))]
    cases += [put(good, (p1, 0), (b0, bad)), put(good, (p1, 1), (b1, bad)), put(good, (b0, 0), (b1, bad))]
    near = moved(kind, generator, 1)
    cases += [put(good, (p0 + 1, 1)), put(good, (p0 + 1, near)), put(good, (p0, near)), put(good, (p1, 1)), put(good, (p1, near)),
              put(good, (p1, moved(kind, generator, parameters[-2]))), put(good, (p0, parameters[-1])), put(good, (p1, near), (b0, 0))]
    stays = norm(kind, w, generator)
    assert stays in fixed(kind)
    sum_ = kind.sum(kind.product(stays, good[b1 - 1]), good[b1 - (w - 1)])
    cases += [put(good, (b0, 0)), put(good, (b0 + 1, 0)), put(good, (b0 + 1, kind.product(stays, good[b0]))), put(good, (b0, stays)),
              put(good, (b1, 0)), put(good, (b1, good[b1 - 1])), put(good, (b1, sum_)), put(good, (b1, 0), (b0, 0))]
    for size in (w + 1, 8):
        locators = list(kind.basis)
        x = generator
        while len(locators) < size:
            x = kind.product(x, generator)
            locators.append(x)
        cases.append(sheet(kind.number, 1, [size], [generator], locators))
    least, two, largest = (sheet(kind.number, blocks * size, [size] * blocks, [1] * blocks, [1] * (blocks * size))
                           for blocks, size in ((1, 1), (2, 1), (12, 2)))
    cases += [least, put(least, (5, 0)), put(least, (5, bad)), put(least, (7, bad)), put(least, (7, 0)),
              two, put(two, (7, near)), put(two, (7, generator)),
              largest, put(largest, (27, 0)), put(largest, (27, bad)), put(largest, (52, bad))]
    for data in cases:
        judged(kind, data)
    two = sheet(kind.number, 1, [1, 1], [1, generator], [1, 1])
    one = sheet(kind.number, 1, [2], [generator], [1, 0])
    for data, place in ((two, 7), (two, 9), (one, 8)):
        counts = [0] * 8
        for x in range(256):
            code, line = judge(kind, put(data, (place, x)))
            counts[0 if code else int(line.split()[1])] += 1
        show('every', counts)


def messages(kind, random, code):
    sent = random.row(kind, code.k)
    show('sent', sent)
    good = encode(kind, code, sent)
    show('word', good)
    show('message', message(kind, code, good))
    place = random.draw() % code.n
    near = spoiled(kind, good, place, unit(kind, random))
    show('near', message(kind, code, near))
    any_ = random.row(kind, code.n)
    show('any', message(kind, code, any_))
    show('short', message(kind, code, good[:-1]))
    long = encode(kind, code, any_)
    show('long', long)
    show('message', message(kind, code, long))
    return good, near, any_


def weights(kind, random, code, good, any_):
    sparse = zero = [0] * code.n
    for _ in range(2):
        place = random.draw() % code.n
        sparse = spoiled(kind, sparse, place, unit(kind, random))
    by = unit(kind, random)
    narrow = [kind.product(by, norm(kind, len(kind.basis), x)) for x in random.row(kind, code.n)]
    for name, word in (('weight', good), ('weight', any_), ('sparse', sparse), ('narrow', narrow), ('zero', zero), ('short', any_[:-1])):
        number(name, weight(kind, code.lengths, word))
    print('ranks', rank(kind, any_), rank(kind, narrow))


def drill(kind, random, draft, k):
    mirror = Mirror(kind)
    lengths, parameters, locators = draft
    code = judged(kind, sheet(kind.number, k, *draft))
    assert code
    good, near, any_ = messages(kind, random, code)
    weights(kind, random, code, good, any_)
    duals = dual_locators(kind, code.points)
    show('duals', duals)
    for d, word in ((duals, good), (duals, near), (duals, any_), (duals, good[:-1]), (duals[:-1], good)):
        show('syndromes', syndromes(kind, code.points, d, k, word))
    show('syndromes', syndromes(kind, code.points, duals, code.n + 1, good))
    show('no duals', dual_locators(kind, []))
    other = lengths, [kind.untwist(a) for a in parameters], duals
    turned = judged(mirror, sheet(mirror.number, code.n - k, *other))
    if not turned:
        print('no dual')
        return
    sent = random.row(mirror, code.n - k)
    word = encode(mirror, turned, sent)
    show('dual word', word)
    print('product-sums', product_sum(kind, good, word), product_sum(kind, any_, word))
    again = dual_locators(mirror, turned.points)
    show('duals', again)
    back = judged(kind, sheet(kind.number, k, lengths, [mirror.untwist(a) for a in other[1]], again))
    show('again', message(kind, back, good))
    show('again', message(kind, back, near))


def drills(kind, random, draft):
    n = len(draft[2])
    for k in (1, max(n // 2, 1), n):
        drill(kind, random, draft, k)


def coding(kind, generator, blocks):
    random = Random(kind.number)
    drills(kind, random, drawn(kind, generator, random, blocks, True))
    for _ in range(2):
        count = 1 + random.draw() % blocks
        drills(kind, random, drawn(kind, generator, random, count, False))


def main():
    every = kinds()
    for kind, (generator, blocks) in zip(every, [(2, 3), (2, 3), (3, 2), (2, 12), (2, 12)]):
        for k in (kind, Mirror(kind)):
            print('kind', k.number)
            judging(k, generator, blocks)
            coding(k, generator, blocks)
    figures(every[3], every[1])
