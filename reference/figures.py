"""The figures that the documents work out of the two codes that all documents use; the program crate code_checks prints them last."""
from codes import dual_locators, encode, syndromes, weight
from shown import A, B, judged, number, put, show


def figure(kind, data, sent, word):
    code = judged(kind, data)
    show('word', encode(kind, code, sent))
    number('weight', weight(kind, code.lengths, word))
    duals = dual_locators(kind, code.points)
    show('duals', duals)
    show('syndromes', syndromes(kind, code.points, duals, code.k, word))
    every = range(kind.size)
    none = [[a, b, c, d] for a in every for b in every for c in every for d in every
            if not any(syndromes(kind, code.points, duals, code.k, [a, b, c, d]))]
    assert sorted(none) == sorted(encode(kind, code, [a, b]) for a in every for b in every)
    print('codewords', len(none), 'weigh', min(weight(kind, code.lengths, w) for w in none if any(w)))


def figures(mod13, gf16):
    print('figures')
    figure(mod13, A, [5, 3], [8, 12, 1, 4])
    figure(gf16, B, [1, 1], [8, 5, 0, 0])
    judged(gf16, put(B, (7, 8)))
    judged(gf16, put(B, (10, 6)))
