"""Both sides of every limit of the reports: encode, message, syndromes, dual and weight; and what is refused first where two reasons hold."""
from drawing import unit
from inputs import inputs, no_codes, outputs, rooms_around
from script import draw, put


def encode_limits(script, random):
    n, k = script.n, script.k
    inputs(script, 'encode', k, random, [n])
    outputs(script, 'encode', n, draw(script.kind, random, k))
    script.must('encode', n, *[script.kind.size - 1] * k)
    script.must('encode', n, *[0] * k)


def message_limits(script, random):
    kind, n, k = script.kind, script.n, script.k
    word = script.codeword(random)
    inputs(script, 'message', n, random, [k])
    outputs(script, 'message', k, word)
    script.must('message', k, *word)
    if k == n:
        script.must('message', k, *[kind.size - 1] * n)
        return
    for place in (0, n - 1):
        near = put(word, place, kind.sum(word[place], unit(kind, random)))
        script.refused(16, 0, 'message', k, *near)
        script.refused(9, 1, 'message', k + 1, *near)
        script.refused(9, 0, 'message', k, *near[1:])
        for bad in no_codes(kind):
            script.refused(10, n - 1 - place, 'message', k, *put(near, n - 1 - place, bad))
        script.must('syndromes', n - k, *near)


def report_limits(script, random):
    n, k, top = script.n, script.k, script.kind.size - 1
    encode_limits(script, random)
    message_limits(script, random)
    word = script.codeword(random)
    inputs(script, 'syndromes', n, random, [n - k])
    outputs(script, 'syndromes', n - k, word)
    inputs(script, 'weight', n, random)
    for row in (word, [top] * n, [0] * n):
        script.must('syndromes', n - k, *row)
        script.must('weight', *row)
    for room in rooms_around(script.dual_size):
        if k < n:
            script.refused(9, 1, 'dual', room)
        else:
            script.refused(17, 0, 'dual', room)
    if k < n:
        script.must('dual', script.dual_size)
    else:
        script.refused(17, 0, 'dual', script.dual_size)
