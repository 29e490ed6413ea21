"""Both sides of every limit of a station, and what is refused first where two reasons hold: of sheets and of what is read here, of hints in
hint_limits.py, of reports in report_limits.py. calls.py prints them."""
from hint_limits import hint_limits
from inputs import no_codes, rooms_around
from report_limits import report_limits
from script import BYTE, HUGE, put
from station_rules import READY, SOLVED


def read_limits(script, random):
    script.must('load', *script.codeword(random))
    script.must('decode')
    n, k = script.n, script.k
    for item in (5, 6, 255, BYTE, BYTE + 1, HUGE, 0, 1, 2, 3, 4):
        for room in rooms_around(n if item else k):
            if item > 4:
                script.refused(11, 0, 'read', item, room)
            else:
                script.refused(9, 1, 'read', item, room)
        if item > 4:
            script.refused(11, 0, 'read', item, n)
        else:
            script.must('read', item, n if item else k)
    script.must('clear')


def wrong_sheets(script):
    """Sheets that are refused by the first two layers."""
    data, l = script.data, script.blocks
    parameters, locators = 4 + l, 5 + 2 * l
    tries = [[], data[:1], data[:-1], data + [0]]
    changes = [(0, data[0] ^ 128), (0, data[0] ^ 1), (1, 0), (1, script.n + 1), (2, 0), (2, 13), (3, 0), (3, 9), (2 + l, 0), (3 + l, l + 1),
               (4 + 2 * l, script.n + 1), (parameters, 0), (locators, 0), (len(data) - 1, 0)]
    if l > 1:
        changes.append((parameters + l - 1, data[parameters]))
    for bad in no_codes(script.kind):
        changes += [(place, bad) for place in (parameters, parameters + l - 1, locators, len(data) - 1)]
    return tries + [put(data, place, x) for place, x in changes]


def sheet_limits(script):
    """What is refused leaves the station bare."""
    script.bare()
    for wrong in wrong_sheets(script):
        said = script.say('set_up', *wrong)
        assert said.startswith('refused') and ' layer 3' not in said, said
        script.refused(8, 0, 'tally')
    script.must('set_up', *script.data)
    script.refused(8, 0, 'set_up', *script.data)


def far(script):
    """Inputs of as many more as a byte does not tell apart."""
    n, k = script.n, script.k
    for call in (['encode', n] + [0] * k, ['message', k] + [0] * n, ['syndromes', n - k] + [0] * n, ['weight'] + [0] * n, ['load'] + [0] * n):
        script.refused(9, 0, *call, *[0] * BYTE)
    script.must('load', *[0] * n)
    script.refused(9, 0, 'column', 1, *[1] * (script.lengths[0] + BYTE))
    script.must('clear')


def limits(script, random, state):
    script.ready()
    sheet_limits(script)
    hint_limits(script, random)
    read_limits(script, random)
    if state != READY:
        script.must('load', *script.codeword(random))
    if script.room:
        script.say('row', script.blocks, 1)
    if state == SOLVED:
        script.must('decode')
    report_limits(script, random)
