"""Histories of a station, word after word: at the limit of reach, hints left over, overlapping and equivalent ones, and the dual. calls.py
prints them."""
from codes import fixed
from damage import damage, hinted
from drawing import pick
from every_call import fitting
from script import Script, added, draw, put, shuffled
from station_rules import SOLVED

NO_HINTS = [], []


def spent(hints):
    return sum(len(rows) + len(columns) for rows, columns in hints)


def to_tell(script, random, many):
    """Hints as they are told, and those of them that are taken."""
    rows, columns, hints = hinted(script.kind, random, script.code, many)
    return [('row', b, u) for b, u in rows] + [('column', b, *row) for b, row in columns], hints


def units(script, block):
    """Row hints and column hints that span all of a block."""
    n = script.lengths[block - 1]
    return [('row', block, x) for x in script.kind.basis], [('column', block, *put([0] * n, p, 1)) for p in range(n)]


def damaged(script, random, errors, hints):
    return added(script.kind, script.codeword(random), damage(script.kind, random, script.code, errors, hints))


def reads(script, random):
    """Message, codeword, one of the parts, which are looked at together, and the codeword again after a call that is not open."""
    if script.state() != SOLVED:
        return
    script.must('read', 0, script.k)
    found = script.must('read', 1, script.n)
    script.must('read', 2 + random.draw() % 3, script.n)
    name = pick(random, ['load', 'row', 'column', 'decode', 'set_up', 'tally'])
    script.say(name, *fitting(script, random)[name])
    assert script.must('read', 1, script.n) == found


def solve(script, random, word, told):
    script.must('load', *word)
    for hint in told:
        script.say(*hint)
    script.say('decode')
    reads(script, random)
    script.must('clear')


def reach(script, random):
    """Words at the limit of reach and one beyond, with as many hints as there may be, half of them, and none; hints that do not fit; and hints
    that are told only once the word was found out of reach."""
    script.ready()
    room = script.room
    none = [NO_HINTS] * script.blocks
    for many in sorted({0, room // 2, room, room + 2}):
        told, hints = to_tell(script, random, many)
        most = (room - spent(hints)) // 2
        for errors, within in ((most, hints), (most + 1, hints), (room // 2, none)):
            solve(script, random, damaged(script, random, errors, within), told)
        script.must('load', *damaged(script, random, most, hints))
        for hint in shuffled(random, told):
            if script.say('decode') == 'ok':
                break
            script.say(*hint)
        script.say('decode')
        reads(script, random)
        script.must('clear')


def left_over(script, random):
    """A block is given up by hints; then words come without them, after a clear before a word is decoded or after it. Hints left over must
    not act."""
    script.ready()
    block = pick(random, range(1, script.blocks + 1))
    n, at = script.lengths[block - 1], sum(script.lengths[:block - 1])
    told = pick(random, units(script, block))[:script.room]
    word = script.codeword(random)
    word[at:at + n] = draw(script.kind, random, n)
    for first in (told, told[:1], told):
        script.must('load', *word)
        for hint in first:
            script.must(*hint)
        script.must('clear')
        solve(script, random, word, [])
        solve(script, random, word, first)
    script.must('tally')


def overlapping(script, random):
    """Row hints and column hints on one block, as many as there may be and one more, and symbols of that block that are drawn."""
    script.ready()
    block = pick(random, range(1, script.blocks + 1))
    n, at = script.lengths[block - 1], sum(script.lengths[:block - 1])
    rows, columns = units(script, block)
    for told in (rows + columns, columns + rows, shuffled(random, rows + columns)):
        word = script.codeword(random)
        word[at:at + n] = draw(script.kind, random, n)
        solve(script, random, word, told[:script.room + 1])


def sums(kind, rows):
    """All sums of the rows with fixed coefficients."""
    out = {tuple([0] * len(rows[0]))}
    for row in rows:
        out = {tuple(kind.sum(x, kind.product(d, y)) for x, y in zip(s, row)) for s in out for d in fixed(kind)}
    return out


def other_rows(kind, random, rows):
    """As many rows that have the same sums."""
    if not rows:
        return []
    every = sums(kind, rows)
    choices = sorted(every)
    while True:
        made = [pick(random, choices) for _ in rows]
        if sums(kind, made) == every:
            return made


def equivalent(script, random):
    """Hints, and others that span the same, in another order to another station: both find the same."""
    for many in sorted({script.room // 2, script.room} - {0}):
        told, hints = to_tell(script, random, many)
        others = []
        for b, (rows, columns) in enumerate(hints):
            others += [('row', b + 1, u) for u, in other_rows(script.kind, random, [[u] for u in rows])]
            others += [('column', b + 1, *row) for row in other_rows(script.kind, random, columns)]
        most = (script.room - spent(hints)) // 2
        for errors in (most, most + 1):
            word, found = damaged(script, random, errors, hints), []
            for list_ in (told, shuffled(random, others)):
                script.ready()
                script.must('load', *word)
                for hint in list_:
                    script.say(*hint)
                found.append([script.say('decode'), script.must('tally')])
                if script.state() == SOLVED:
                    found[-1] += script.read_all()
            assert found[0] == found[1], found


def turned(script, random):
    """The sheet of the dual sets up a station of the mirror, and the sheet of its dual one of the first kind again."""
    script.ready()
    word = script.codeword(random)
    if script.room == 0:
        return
    last = script
    for _ in range(2):
        wrote = last.must('dual', last.dual_size).split()[1:]
        last = Script([int(x) for x in wrote])
        last.ready()
        last.must('encode', last.n, *draw(last.kind, random, last.k))
        last.must('syndromes', last.room, *last.codeword(random))
        solve(last, random, damaged(last, random, last.room // 2, [NO_HINTS] * last.blocks), [])
    last.must('message', script.k, *word)
