"""Every call in every state, with arguments that are good there and with poor ones. calls.py prints them."""
from script import draw
from station_rules import BARE, HELD, OPEN, READY, SOLVED


def come_to(script, state, random):
    script.ready()
    if state == BARE:
        script.bare()
    if state in (HELD, SOLVED):
        script.must('load', *script.codeword(random))
        script.must('row', 1, 1)
    if state == SOLVED:
        script.must('decode')


def fitting(script, random):
    """For each call what it is not refused for where it is open."""
    word, n, k = script.codeword(random), script.n, script.k
    return {
        'set_up': script.data,
        'load': word,
        'row': [script.blocks, 2],
        'column': [1] + [1] * script.lengths[0],
        'decode': [],
        'clear': [],
        'read': [1, n],
        'encode': [n] + draw(script.kind, random, k),
        'message': [k] + word,
        'syndromes': [n - k] + word,
        'dual': [script.dual_size],
        'weight': word,
        'tally': [],
    }


# For each call what would be refused wherever it is open.
POOR = {
    'set_up': [],
    'load': [],
    'row': [0, 255],
    'column': [0],
    'read': [5, 0],
    'encode': [0],
    'message': [0, 255],
    'syndromes': [0, 255],
    'dual': [0],
    'weight': [255],
}


def probe(script):
    """What these calls answer tells the state, and whether hints are held."""
    zeros = [0] * script.n
    for call in (['tally'], ['read', 1, script.n], ['row', 1, 1], ['decode'], ['read', 0, script.k], ['clear'], ['load', *zeros], ['row', 1, 1],
                 ['decode'], ['set_up', *script.data], ['tally']):
        script.say(*call)


def every_call(script, random):
    for state in (BARE, READY, HELD, SOLVED):
        for name in OPEN:
            come_to(script, state, random)
            said = script.say(name, *fitting(script, random)[name])
            assert said.startswith('refused') == (state not in OPEN[name]), (state, name, said)
            probe(script)
            if state not in OPEN[name] and name in POOR:
                come_to(script, state, random)
                script.refused(8, 0, name, *POOR[name])
                probe(script)
