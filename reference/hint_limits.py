"""Both sides of every limit of words and hints: every reason against a hint, with room and without; and what is refused first where two
reasons hold."""
from codes import fixed, grown
from inputs import inputs, lengths_around, no_codes
from script import BYTE, HUGE, put


def outside(script):
    return 0, script.blocks + 1, BYTE, BYTE + 1, HUGE


def spans(kind, rows):
    span = {0}
    for u in rows:
        span = grown(kind, span, u)
    return span


def row_refusals(script, spent):
    """The reasons against a row hint, while there is room for one more and when there is none."""
    for block in outside(script):
        for element in (0, 1, 255):
            script.refused(11, 0, 'row', block, element)
    for block in sorted({1, script.blocks}):
        taken = spans(script.kind, script.station.hints[block - 1][0])
        free = [x for x in range(script.kind.size) if x not in taken]
        for bad in no_codes(script.kind):
            script.refused(10, 0, 'row', block, bad)
        for x in sorted(taken)[:2] + sorted(taken)[-2:]:
            script.refused(12, 0, 'row', block, x)
        if spent:
            for x in free[:2] + free[-2:]:
                script.refused(13, 0, 'row', block, x)


def loose(kind):
    """Some elements that are not fixed, the last one that is not, and numbers that are no codes."""
    moved = [a for a in range(kind.size) if kind.twist(a) != a]
    return moved[:1] + moved[-1:] + no_codes(kind)


def column_refusals(script, spent):
    for block in outside(script):
        n = script.lengths[0]
        for row in ([1] * n, [0] * n, [255] * (n + 1), []):
            script.refused(11, 0, 'column', block, *row)
    for block in sorted({1, script.blocks}):
        n = script.lengths[block - 1]
        good, columns = [1] * n, script.station.hints[block - 1][1]
        for length in lengths_around(n):
            script.refused(9, 0, 'column', block, *[1] * length)
            script.refused(9, 0, 'column', block, *[255] * length)
        for bad in loose(script.kind):
            script.refused(10, 0, 'column', block, *put(put(good, n - 1, 255), 0, bad))
            for place in sorted({0, n - 1}):
                script.refused(10, place, 'column', block, *put([0] * n, place, bad))
        for row in [[0] * n, *columns]:
            script.refused(12, 0, 'column', block, *row)
        if spent and not columns:
            script.refused(13, 0, 'column', block, *good)


def extremes(script):
    """The last code as an element, and the last fixed code as each coefficient."""
    kind, last = script.kind, script.blocks
    script.must('row', last, kind.size - 1)
    script.refused(12, 0, 'row', last, kind.size - 1)
    if script.room > 1:
        script.must('column', last, *[fixed(kind)[-1]] * script.lengths[-1])
    script.must('clear')


def hint_limits(script, random):
    """Hints one by one until there is no room, and in between what is refused; then they are cleared, and again."""
    inputs(script, 'load', script.n, random)
    if script.room:
        script.must('load', *[0] * script.n)
        extremes(script)
    for turn in range(2):
        script.must('load', *[script.kind.size - 1] * script.n)
        wanted = [('row', b + 1, x) for b in range(script.blocks) for x in script.kind.basis]
        wanted += [('column', b + 1, *put([0] * n, p, 1)) for b, n in enumerate(script.lengths) for p in range(n)]
        for taken in range(script.room):
            if turn == 0 and taken == script.room - 1:
                row_refusals(script, False)
                column_refusals(script, False)
            hint = wanted.pop(random.draw() % len(wanted))
            script.must(*hint)
            script.refused(12, 0, *hint)
        if turn == 0:
            row_refusals(script, True)
            column_refusals(script, True)
        for hint in wanted[:1] + wanted[-1:]:
            script.refused(13, 0, *hint)
        script.say('decode')
        script.must('clear')
