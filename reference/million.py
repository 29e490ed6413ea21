"""The million words that fill a tally: a code of three blocks of one symbol; five words, which come round until all but one of a million are
recovered; and the calls that follow, by which one more is recovered and then none. station.py prints them last."""
from every_kind import EVERY
from station import Station, answer
from station_rules import FULL

SHEET = (4, 1, 3, 1, 1, 1, 3, 1, 2, 3, 3, 1, 1, 1)
ROUND = ((5, 5, 5), (7, 7, 0), (12, 3, 12), (0, 0, 0), (1, 9, 9))
CALLS = (
    'tally', 'load 0 1 2', 'decode', 'tally', 'clear',
    'load 8 8 4', 'decode', 'tally', 'read 0 1', 'read 1 3', 'read 2 3', 'decode', 'clear', 'tally',
    'load 8 8 4', 'decode', 'row 1 6', 'row 1 5', 'decode', 'column 2 1', 'row 3 4', 'decode', 'read 1 3', 'tally', 'clear',
    'load 0 1 2', 'decode', 'encode 3 4', 'message 1 4 4 4', 'message 1 4 4 5', 'syndromes 2 8 8 4', 'dual 14', 'weight 8 8 4', 'clear', 'tally',
)


def million():
    station = Station(EVERY[4])
    assert station.call('set_up', *SHEET) == 'ok'
    for i in range(FULL - 1):
        answers = station.call('load', *ROUND[i % len(ROUND)]), station.call('decode'), station.call('clear')
        assert answers == ('ok', 'ok', 'ok')
    for line in CALLS:
        print(answer(station, line))
