"""Jobs that are refused, and their neighbours that are not: every refusal of the reader, of the code, of the word and of the hints, at the
first and the last place, truncations, and both sides of every limit. job_list.py prints them."""
from codes import Code, fixed, moved, sheet
from damage import fitting
from job_lines import job, refused, say
from jobs import NUMBERS
from script import draw, put

# Refusals of the reader.


def sections(data):
    """The places of the three counts."""
    word = 5 + 2 * data[2] + sum(data[3:3 + data[2]])
    rows = word + 1 + data[word]
    return word, rows, rows + 1 + 2 * data[rows]


def truncated(good):
    word = sections(good)[0]
    for i in range(len(good)):
        refused(1, 1 if i < word else 4, i, good[:i])


def extra(good):
    for more in ([0], [255], [1, 2], good):
        refused(2, 4, len(good), good + more)


def off_by_one(good):
    """Each byte one off, and at the ends."""
    for i in range(len(good)):
        for x in {good[i] - 1, good[i] + 1, 0, 255} - {-1, 256}:
            say(put(good, i, x))


def other_kinds(good, every):
    for x in every:
        if x in NUMBERS:
            say(put(good, 0, x))
        else:
            refused(3, 1, 0, put(good, 0, x))
            refused(3, 1, 0, [x])


def sheets(number):
    """Both sides of the limits of a sheet, with a word behind it."""
    for lengths in ([1], [8], [9], [0], [1, 0], [8, 8, 8], [8, 8, 9], [8, 8, 7, 1], [8, 8, 8, 1], [2] * 12, [2] * 11 + [3], [1] * 12, [1] * 13, []):
        n = sum(lengths)
        for k in (0, 1, n, n + 1):
            say(job(sheet(number, k, lengths, [1] * len(lengths), [1] * n), [1] * n))
    say(job([number, 2, 2, 1, 1, 1, 1, 1, 2, 1, 1], [1, 1]))
    say(job([number, 2, 2, 1, 1, 3, 1, 2, 3, 2, 1, 1], [1, 1]))
    say(job([number, 2, 2, 1, 1, 2, 1, 2, 1, 1], [1, 1]))
    say(job([number, 2, 2, 1, 1, 2, 1, 2, 3, 1, 1, 1], [1, 1]))


def counts(data, word, rows, columns):
    good, n, last = job(data, word, rows, columns), len(word), data[2]
    at, rows_at, columns_at = sections(good)
    refused(1, 4, at, data)
    for x in {0, n - 1, n + 1, 24, 25, 255} - {n}:
        refused(4, 4, at, put(good, at, x))
        refused(4, 4, at, put(good, at, x)[:at + 1])
        refused(4, 4, at, [*data, x] + ([*word, 0, 0] * 2)[:x] + good[rows_at:])
    for x in (25, 26, 255):
        refused(4, 4, rows_at, put(good, rows_at, x)[:rows_at + 1])
        refused(4, 4, rows_at, put(good, rows_at, x))
        refused(4, 4, columns_at, put(good, columns_at, x)[:columns_at + 1])
        refused(4, 4, columns_at, put(good, columns_at, x))
    for x in range(25):
        say(put(good, rows_at, x))
        say(put(good, columns_at, x))
    first = [1] * data[3]
    for many in (23, 24, 25):
        every = [(1 + i % last, 1 + i % 12) for i in range(many)], [(1, first)] * many
        for some in ((every[0], []), ([], every[1]), every):
            say(job(data, word, *some))
        refused(1, 4, rows_at + 1 + 2 * many, job(data, word, every[0])[:-1]) if many < 25 else None


def blocks(data, word, rows, columns):
    """Each block of the hints, from none to more than there are, with and without the bytes behind it."""
    good, lengths = job(data, word, rows, columns), data[3:3 + data[2]]
    rows_at, columns_at = sections(good)[1:]
    places, at = [rows_at + 1 + 2 * i for i in range(len(rows))], columns_at + 1
    for block, h in columns:
        places.append(at)
        at += 1 + len(h)
    for at in places:
        for x in (0, len(lengths) + 1, 128, 255):
            refused(11, 4, at, put(good, at, x))
            refused(11, 4, at, put(good, at, x)[:at + 1])
        for x in (1, len(lengths)):
            say(put(good, at, x))
            refused(1, 4, at + 1, put(good, at, x)[:at + 1])


# Refusals of the code, the word and the hints.


def unfit(kind, draft, k):
    data = sheet(kind.number, k, *draft)
    l, n = data[2], len(draft[2])
    p0, p1, b0, b1 = 4 + l, 3 + 2 * l, 5 + 2 * l, 4 + 2 * l + n
    word = [1] * n
    cases = [[(p, 0)] for p in (p0, p1)] + [[(b, 0)] for b in (b0, b0 + 1, b1)]
    for x in [kind.size - 1] + [x for x in (kind.size, 255) if x < 256]:
        cases += [[(p, x)] for p in (p0, p1, b0, b1)] + [[(p1, 0), (b0, x)], [(b0, 0), (b1, x)]]
    for i in (p0, p1 - 1, p1):
        cases += [[(i, moved(kind, c, data[j]))] for j in (p0, p1) for c in (1, 2)]
    cases += [[(b1, data[b1 - 1])], [(b0, data[b1])], [(p1, data[p0]), (b0, 0)]]
    for changes in cases:
        bad = data
        for place, x in changes:
            bad = put(bad, place, x)
        say(job(bad, word))
        # what waits for the sheet, and what goes before the code
        say(job(bad, [255] * n, [(1, 255)]))
        say(job(bad, word)[:-1])
        say(job(bad, word) + [0])
        say(job(bad, word, [(l + 1, 1)]))


def symbols(kind, data, word):
    at, last = len(data) + 1, len(word) - 1
    for x in {0, kind.size - 1, kind.size, 255} - {256}:
        for i in {0, last // 2, last}:
            bad = job(data, put(word, i, x))
            say(bad) if x < kind.size else refused(10, 3, at + i, bad)
        if x >= kind.size:
            refused(10, 3, at, job(data, [x] + word[1:last] + [255], [(1, x)]))
            refused(10, 3, at + last, job(data, put(word, last, x), [(1, 0)], [(1, [x] * data[3])]))


def hints(kind, random, draft, k):
    """Each reason at the first hint and the last."""
    data, code = sheet(kind.number, k, *draft), Code(k, *draft)
    word, room = draw(kind, random, code.n), code.n - k
    end = len(data) + 1 + code.n + 1
    loose = [x for x in range(256) if x not in fixed(kind)]
    loose = [loose[0], loose[-1]] if loose else []
    for sorts in (('row',), ('column',), ('row', 'column')) if 1 < k < code.n else (('row', 'column'),):
        rows, columns, taken = fitting(kind, random, code, room, sorts)
        say(job(data, word, rows, columns))
        for some in {0, len(rows) // 2, len(rows)}:
            for u in {0, 1, kind.size - 1, kind.size, 255} - {256}:
                for block in {1, len(code.lengths)}:
                    say(job(data, word, rows[:some] + [(block, u)] + rows[some:], columns))
            if rows:
                say(job(data, word, rows[:some] + [rows[0]] + rows[some:], columns))
        for some in {0, len(columns) // 2, len(columns)}:
            for block in {1, len(code.lengths)}:
                size = code.lengths[block - 1]
                zeros = [0] * size
                for h in [zeros, [1] * size] + [put(zeros, i, x) for x in loose + [1] for i in {0, size - 1}]:
                    say(job(data, word, rows, columns[:some] + [(block, h)] + columns[some:]))
            if columns:
                say(job(data, word, rows, columns[:some] + [columns[0]] + columns[some:]))
    refused(12, 3, end, job(data, word, [(1, 0)]))
    refused(12, 3, end + 1, job(data, word, [], [(1, [0] * code.lengths[0])]))
    if not room:
        refused(13, 3, end, job(data, word, [(1, 1)]))
        refused(13, 3, end + 1, job(data, word, [], [(1, [1] * code.lengths[0])]))
