"""The rules of a station's calls: its states, the calls that are open in each, and the refusals by their numbers."""

BARE, READY, HELD, SOLVED = 'bare', 'ready', 'held', 'solved'
ALL_BUT_BARE = (READY, HELD, SOLVED)
OPEN = {
    'set_up': (BARE,),
    'load': (READY,),
    'row': (HELD,),
    'column': (HELD,),
    'decode': (HELD,),
    'read': (SOLVED,),
    'clear': (HELD, SOLVED),
    'encode': ALL_BUT_BARE,
    'message': ALL_BUT_BARE,
    'syndromes': ALL_BUT_BARE,
    'dual': ALL_BUT_BARE,
    'weight': ALL_BUT_BARE,
    'tally': ALL_BUT_BARE,
}
NOT_OPEN, WRONG_LENGTH, NO_SYMBOL, OUT_OF_RANGE, DEPENDENT, SPENT, OUT_OF_REACH, FULL_TALLY, NO_CODEWORD, NO_DUAL = range(8, 18)
NOT_TAKEN = {'no block': OUT_OF_RANGE, 'wrong length': WRONG_LENGTH, 'dependent': DEPENDENT, 'spent': SPENT}
INPUT, OUTPUT = 0, 1
FULL = 1000000


class Refused(Exception):
    """Its text is the line that is printed."""


def refuse(number, place=0):
    raise Refused('refused %d layer 3 place %d' % (number, place))


def exact(length, wanted, which):
    if length != wanted:
        refuse(WRONG_LENGTH, which)
