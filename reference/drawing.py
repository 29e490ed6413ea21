"""What is drawn at random: one of several, a symbol other than zero, and the blocks of a lawful code."""
from codes import moved


def pick(random, xs):
    return xs[random.draw() % len(xs)]


def unit(kind, random):
    return 1 + random.draw() % (kind.size - 1)


def drawn(kind, generator, random, blocks, full):
    lengths, parameters, locators, power = [], [], [], 1
    for _ in range(blocks):
        parameters.append(moved(kind, unit(kind, random), power))
        power = kind.product(power, generator)
        w = len(kind.basis)
        lengths.append(w if full else 1 + random.draw() % w)
        by, last = unit(kind, random), 0
        for b in kind.basis[:lengths[-1]]:
            last = kind.sum(kind.product(by, b), last)
            locators.append(last)
    return lengths, parameters, locators
