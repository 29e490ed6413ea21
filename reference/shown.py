"""What the cases, figures and tours of codes share: lines of numbers as they are shown, the sheets of the two codes that all documents use,
and changes to a sheet or a word."""
from codes import judge

A = [4, 2, 4, 1, 1, 1, 1, 4, 1, 2, 3, 4, 4, 1, 1, 1, 1]
B = [2, 2, 2, 2, 2, 2, 1, 2, 4, 1, 2, 1, 2]


def show(name, row):
    print(name, *(['none'] if row is None else row))


def number(name, x):
    print(name, 'none' if x is None else x)


def judged(kind, data):
    code, line = judge(kind, data)
    print(line)
    return code


def put(data, *changes):
    out = list(data)
    for place, x in changes:
        out[place] = x
    return out


def spoiled(kind, word, place, x):
    return [kind.sum(y, x) if i == place else y for i, y in enumerate(word)]
