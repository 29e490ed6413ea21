#!/usr/bin/env python3
"""A station by its rules, in the plainest way, to hold the codec's against: what a call answers in each state, and the first reason
against it. Words are recovered by recovery.py, by other means than the codec's. Nothing is shared with the codec.

  station.py        reads lists of calls and prints what the program crate station_checks has to print of them, and then of the
                    million words that fill a tally, which stand in million.py

The lists are made by calls.py. So the stored files of the program are made anew in this folder by

  python3 calls.py >../crates/station_checks/stdin
  python3 station.py <../crates/station_checks/stdin >../crates/station_checks/stdout

A line is `station KIND`, which begins a bare station of the kind, or a call on it, all numbers in decimal; ROOM is the length of a buffer:

  set_up BYTE..            load SYMBOL..            row BLOCK ELEMENT        column BLOCK COEFFICIENT..
  decode                   clear                    read ITEM ROOM           encode ROOM SYMBOL..
  message ROOM SYMBOL..    syndromes ROOM SYMBOL..  dual ROOM                weight SYMBOL..
  tally

Each line is answered by one. The parts of a difference are not determined by hints, so that where hints were taken the answer is
`splits`: the program looks itself whether what it reads is a splitting.
"""
import sys
from functools import cache

import codes
from every_kind import EVERY
from fields import Mirror
from recovery import less, recover, takes
from station_rules import (BARE, FULL, FULL_TALLY, HELD, INPUT, NO_CODEWORD, NO_DUAL, NO_SYMBOL, NOT_OPEN, NOT_TAKEN, OPEN, OUT_OF_RANGE,
                           OUT_OF_REACH, OUTPUT, READY, SOLVED, Refused, exact, refuse)


def text(*words):
    return ' '.join(map(str, words))


# What is asked again and again is worked out once.


@cache
def judged(number, data):
    """The code of a sheet, or nothing, and the line of a refusal."""
    return codes.judge(EVERY[number], list(data))


@cache
def duals(number, data):
    return codes.dual_locators(EVERY[number], judged(number, data)[0].points)


@cache
def recovered(number, data, word, hints):
    return recover(EVERY[number], judged(number, data)[0], [(list(rows), list(columns)) for rows, columns in hints], word)


class Station:
    def __init__(self, kind):
        self.kind, self.state = kind, BARE
        self.words = self.errors = 0

    def call(self, name, *arguments):
        try:
            if self.state not in OPEN[name]:
                refuse(NOT_OPEN)
            return getattr(self, name)(*arguments)
        except Refused as refusal:
            return str(refusal)

    def symbols(self, row):
        for i, x in enumerate(row):
            if x >= self.kind.size:
                refuse(NO_SYMBOL, i)

    def set_up(self, *data):
        code, line = judged(self.kind.number, data)
        if not code:
            raise Refused(line)
        self.data, self.code, self.n, self.k, self.state = data, code, code.n, code.k, READY
        return 'ok'

    def load(self, *word):
        exact(len(word), self.n, INPUT)
        self.symbols(word)
        self.word, self.hints, self.state = word, [([], []) for _ in self.code.lengths], HELD
        return 'ok'

    def clear(self):
        self.word = self.hints = self.found = None
        self.state = READY
        return 'ok'

    def hint(self, sort, block, hint):
        verdict = takes(self.kind, self.code, self.hints, sort, block, hint)
        if verdict.startswith('no code'):
            refuse(NO_SYMBOL, int(verdict.split()[2]))
        if verdict != 'taken':
            refuse(NOT_TAKEN[verdict])
        return 'ok'

    def row(self, block, element):
        return self.hint('row', block, element)

    def column(self, block, *coefficients):
        return self.hint('column', block, coefficients)

    def taken(self):
        return sum(len(rows) for rows, columns in self.hints), sum(len(columns) for rows, columns in self.hints)

    def decode(self):
        if self.words == FULL:
            refuse(FULL_TALLY)
        hints = tuple((tuple(rows), tuple(columns)) for rows, columns in self.hints)
        found = recovered(self.kind.number, self.data, self.word, hints)
        if found is None:
            refuse(OUT_OF_REACH)
        self.found, self.state = found, SOLVED
        self.words += 1
        self.errors += found[2]
        return 'ok'

    def read(self, item, room):
        if item > 4:
            refuse(OUT_OF_RANGE)
        exact(room, self.n if item else self.k, OUTPUT)
        sent, codeword, errors = self.found
        rows, columns = self.taken()
        counts = text('full', errors, 'row', rows, 'column', columns)
        if item > 1 and rows + columns > 0:
            return counts + ' splits'
        zeros = [0] * self.n
        return text(counts + ':', *(sent, codeword, less(self.kind, self.word, codeword), zeros, zeros)[item])

    def encode(self, room, *sent):
        exact(len(sent), self.k, INPUT)
        exact(room, self.n, OUTPUT)
        self.symbols(sent)
        return text('wrote', *codes.encode(self.kind, self.code, sent))

    def message(self, room, *word):
        exact(len(word), self.n, INPUT)
        exact(room, self.k, OUTPUT)
        self.symbols(word)
        sent = codes.message(self.kind, self.code, word)
        if sent is None:
            refuse(NO_CODEWORD)
        return text('wrote', *sent)

    def syndromes(self, room, *word):
        exact(len(word), self.n, INPUT)
        exact(room, self.n - self.k, OUTPUT)
        self.symbols(word)
        locators = duals(self.kind.number, self.data)
        return text('wrote', *codes.syndromes(self.kind, self.code.points, locators, self.k, word))

    def dual(self, room):
        if self.k == self.n:
            refuse(NO_DUAL)
        lengths, parameters = self.code.lengths, [self.kind.untwist(a) for a in self.code.parameters]
        exact(room, 5 + 2 * len(lengths) + self.n, OUTPUT)
        mirror = Mirror(self.kind).number
        return text('wrote', *codes.sheet(mirror, self.n - self.k, lengths, parameters, duals(self.kind.number, self.data)))

    def weight(self, *word):
        exact(len(word), self.n, INPUT)
        self.symbols(word)
        return text('weight', codes.weight(self.kind, self.code.lengths, word))

    def tally(self):
        return text('words', self.words, 'errors', self.errors)


def answer(station, line):
    name, *numbers = line.split()
    return station.call(name, *map(int, numbers))


def main():
    # these stand on the definitions above
    from million import million
    station = None
    for line in sys.stdin:
        line = line.strip()
        if line.startswith('station'):
            station = Station(EVERY[int(line.split()[1])])
            print(line)
        else:
            print(answer(station, line))
    print('a million words')
    million()


if __name__ == '__main__':
    main()
