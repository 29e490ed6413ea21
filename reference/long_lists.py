"""Long lists of good and bad calls to a station. calls.py prints them."""
from codes import fixed
from drawing import pick
from histories import damaged, spent, to_tell
from script import BYTE, draw, put, shuffled
from station_rules import BARE, HELD, OPEN, READY


def around(random, n):
    return max(0, n + pick(random, [-1, 0, 0, 0, 0, 0, 0, 1]))


def symbols(script, random, n):
    row = draw(script.kind, random, n)
    if n and random.draw() % 5 == 0:
        row[random.draw() % n] = pick(random, [script.kind.size % BYTE, 255])
    return row


def word_or_so(script, random):
    return script.codeword(random) if random.draw() % 2 else symbols(script, random, around(random, script.n))


def any_hint(script, random, name):
    block = random.draw() % (script.blocks + 2)
    if name == 'row':
        return [block] + symbols(script, random, 1)
    n = script.lengths[(block - 1) % script.blocks]
    if random.draw() % 4 == 0:
        return [block] + symbols(script, random, n)
    return [block] + [pick(random, fixed(script.kind)) for _ in range(around(random, n))]


def any_call(script, random, name):
    """Good and bad arguments for a call."""
    n, k = script.n, script.k
    if name == 'set_up':
        return put(script.data, random.draw() % len(script.data), random.draw() % 16) if random.draw() % 4 else script.data
    if name in ('load', 'weight'):
        return word_or_so(script, random)
    if name in ('row', 'column'):
        return any_hint(script, random, name)
    if name == 'read':
        item = random.draw() % 6
        return [item, around(random, n if item else k)]
    if name == 'encode':
        return [around(random, n)] + symbols(script, random, around(random, k))
    if name in ('message', 'syndromes'):
        return [around(random, k if name == 'message' else n - k)] + word_or_so(script, random)
    return [around(random, script.dual_size)] if name == 'dual' else []


def load(script, random):
    """A word, and the hints that go with it."""
    room = script.room
    told, hints = to_tell(script, random, pick(random, [0, 0, 1, room // 2, room, room + 1]))
    errors = max(0, (room - spent(hints)) // 2 + pick(random, [-1, 0, 0, 0, 1]))
    script.must('load', *damaged(script, random, errors, hints))
    return shuffled(random, told) if random.draw() % 2 else told


def step(script, random, told):
    """A call that leads on; what is still to be told of the word."""
    state = script.state()
    if state == BARE:
        if script.say('set_up', *any_call(script, random, 'set_up')) == 'ok':
            script.stand()
    elif state == READY:
        return load(script, random)
    elif state == HELD and told:
        script.say(*told[0])
        return told[1:]
    elif state == HELD:
        if script.say('decode') != 'ok' and random.draw() % 2:
            script.must('clear')
    elif random.draw() % 4:
        item = random.draw() % 5
        script.must('read', item, script.n if item else script.k)
    else:
        script.must('clear')
    return told


def long_list(script, random, many):
    script.ready()
    script.bare()
    told = []
    for _ in range(many):
        if random.draw() % 3:
            told = step(script, random, told)
        else:
            name = pick(random, [name for name in OPEN if name not in ('clear', 'set_up')])
            script.say(name, *any_call(script, random, name))
