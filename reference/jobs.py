#!/usr/bin/env python3
"""Jobs by their rules, in the plainest way, to hold the codec's against: a job is taken apart from the front, put to a station of
station.py call by call, and its text is made of what that answers. Nothing is shared with the codec.

  jobs.py           reads jobs, one to a line, their bytes in decimal, and prints what the program crate job_checks has to print of them

The jobs are made by job_list.py. So the stored files of the program are made anew in this folder by

  python3 job_list.py >../crates/job_checks/stdin
  python3 jobs.py <../crates/job_checks/stdin >../crates/job_checks/stdout

The parts of a difference are not determined by hints, so that where hints were taken the counts alone are printed, and `splits`: the
program looks itself whether what it reads is a splitting.
"""
import sys

from every_kind import EVERY
from recovery import less
from sheets import judge as read
from station import Station, text

NUMBERS = (1, 2, 3, 4, 129, 130, 131, 132)
MISSING, EXTRA, LIMIT, BLOCK = 1, 2, 4, 11
MOST = 24


class Stopped(Exception):
    """Number, layer and place."""


def refusal(line):
    """Number, layer and place of the line of a refusal; nothing for any other."""
    words = line.split()
    return (int(words[1]), int(words[3]), int(words[5])) if words[0] == 'refused' else None


class Reader:
    """Gives the bytes of a job from a place on."""

    def __init__(self, data, place):
        self.data, self.place = data, place

    def byte(self):
        if self.place == len(self.data):
            raise Stopped(MISSING, 4, len(self.data))
        self.place += 1
        return self.data[self.place - 1]

    def bytes(self, count):
        return [self.byte() for _ in range(count)]

    def count(self, allowed):
        """A count, if it is allowed."""
        count = self.byte()
        if count not in allowed:
            raise Stopped(LIMIT, 4, self.place - 1)
        return count

    def block(self, blocks):
        block = self.byte()
        if not 1 <= block <= blocks:
            raise Stopped(BLOCK, 4, self.place - 1)
        return block

    def end(self):
        if self.place < len(self.data):
            raise Stopped(EXTRA, 4, self.place)


def sheet_of(data):
    """The bytes of the sheet in front. Where more bytes follow, a reader of sheets refuses the first of them."""
    number, layer, place = refusal(read(data[0], data)) or (EXTRA, 1, len(data))
    if number != EXTRA:
        raise Stopped(number, layer, place)
    return data[:place]


def calls(data):
    """What a job asks of a station, each call with the place of its first byte."""
    sheet = sheet_of(data)
    lengths = sheet[3:3 + sheet[2]]
    n = sum(lengths)
    reader, out = Reader(data, len(sheet)), [(0, 'set_up', *sheet)]
    count = reader.count([n])
    out.append((reader.place, 'load', *reader.bytes(count)))
    for _ in range(reader.count(range(MOST + 1))):
        out.append((reader.place, 'row', reader.block(len(lengths)), reader.byte()))
    for _ in range(reader.count(range(MOST + 1))):
        at, block = reader.place, reader.block(len(lengths))
        out.append((at, 'column', block, *reader.bytes(lengths[block - 1])))
    reader.end()
    return out + [(len(data), 'decode')]


def solved(data):
    """The station after all calls of the job."""
    if not data:
        raise Stopped(MISSING, 1, 0)
    if data[0] not in NUMBERS:
        raise Stopped(3, 1, 0)
    station = Station(EVERY[data[0]])
    for at, name, *arguments in calls(data):
        stop = refusal(station.call(name, *arguments))
        if stop:
            number, layer, place = stop
            raise Stopped(number, layer, at + (place if name in ('set_up', 'load') else 0))
    return station


def answer(data):
    """The lines that are printed of a job."""
    try:
        station = solved(data)
    except Stopped as stop:
        return ['refused %d layer %d place %d' % stop.args]
    sent, codeword, errors = station.found
    rows, columns = station.taken()
    out = [text('word', *codeword), text('message', *sent)]
    if rows + columns:
        return out + [text('full', errors, 'row', rows, 'column', columns, 'splits')]
    zeros = [0] * len(codeword)
    return out + [text('full', errors, *less(station.kind, station.word, codeword)), text('row', 0, *zeros), text('column', 0, *zeros)]


def main():
    for line in sys.stdin:
        for words in answer([int(x) for x in line.split()]):
            print(words)


if __name__ == '__main__':
    main()
