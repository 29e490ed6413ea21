#!/usr/bin/env python3
"""A list of calls as it is made: each is printed, and a station of station.py answers along, so that what follows can be chosen by its state.
The lists are kept, and no answer is."""
from codes import encode
from every_kind import EVERY
from station import Station

# Blocks and items far above all that there are.
HUGE = 2 ** 64 - 1
BYTE = 256


class Script:
    """A station as it is called, and the sheet that it is set up with."""

    def __init__(self, data):
        self.data, self.kind = data, EVERY[data[0]]

    def bare(self):
        print('station', self.kind.number)
        self.station = Station(self.kind)

    def ready(self):
        self.bare()
        self.must('set_up', *self.data)
        self.stand()

    def stand(self):
        """What the station is set up with is what the list goes on with."""
        self.data, self.code = list(self.station.data), self.station.code
        self.n, self.k, self.room, self.lengths = self.code.n, self.code.k, self.code.n - self.code.k, self.code.lengths
        self.blocks = len(self.lengths)
        self.dual_size = 5 + 2 * self.blocks + self.n

    def state(self):
        return self.station.state

    def say(self, name, *arguments):
        print(name, *arguments)
        return self.station.call(name, *arguments)

    def must(self, name, *arguments):
        said = self.say(name, *arguments)
        assert not said.startswith('refused'), (name, arguments, said)
        return said

    def refused(self, number, place, name, *arguments):
        said = self.say(name, *arguments)
        assert said == 'refused %d layer 3 place %d' % (number, place), (name, arguments, said)

    def read_all(self):
        return [self.must('read', item, self.n if item else self.k) for item in range(5)]

    def codeword(self, random):
        return encode(self.kind, self.code, draw(self.kind, random, self.k))


def draw(kind, random, n):
    """Codes, all of them."""
    return [random.draw() % kind.size for _ in range(n)]


def added(kind, a, b):
    return [kind.sum(x, y) for x, y in zip(a, b)]


def put(row, place, x):
    return row[:place] + [x] + row[place + 1:]


def shuffled(random, xs):
    xs, out = list(xs), []
    while xs:
        out.append(xs.pop(random.draw() % len(xs)))
    return out
