"""Jobs as lines: each is printed once, and one that has to be refused is held to its refusal."""
from jobs import answer

seen = set()


def say(data):
    """A line, if it is new."""
    if tuple(data) not in seen:
        seen.add(tuple(data))
        print(*data)


def refused(number, layer, place, data):
    wanted = 'refused %d layer %d place %d' % (number, layer, place)
    assert answer(data) == [wanted], (wanted, answer(data), data)
    say(data)


def job(data, word, rows=(), columns=()):
    out = [*data, len(word), *word, len(rows)]
    for block, u in rows:
        out += [block, u]
    out.append(len(columns))
    for block, h in columns:
        out += [block, *h]
    return out
