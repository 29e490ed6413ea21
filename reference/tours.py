"""Tours of the first of the two codes that all documents use, on a station: `codes.py tour` prints what the program crate tour has to print,
`recovery.py tour` what the program crate rescue_tour has to print."""
from recovery import less
from shown import A, show, spoiled
from station import Station


def called(name, answer):
    print('%s: %s' % (name, 'done' if answer == 'ok' else answer))


def written(name, answer):
    if answer.startswith('wrote'):
        show(name, answer.split()[1:])
    else:
        print('%s: %s' % (name, answer))


def inspect(station, word):
    show('word', word)
    print(' ', station.call('weight', *word))
    written('  syndromes', station.call('syndromes', 2, *word))
    written('  message', station.call('message', 2, *word))


def rescue(station, word, blocks):
    """A word is loaded, the symbols of these blocks, of one symbol each, are given up, and it is decoded and cleared."""
    show('damaged', word)
    station.call('load', *word)
    for b in blocks:
        assert station.call('column', b, 1) == 'ok'
        print('  block', b, 'is given up')
    if station.call('decode') == 'ok':
        sent, codeword, errors = station.found
        show('  recovered', codeword)
        show('  message', sent)
        print('  full errors', errors)
        # with one symbol to a block, and only column hints, the parts are determined
        e = less(station.kind, word, codeword)
        show('  full part', [0 if i + 1 in blocks else x for i, x in enumerate(e)])
        show('  row part', [0] * len(e))
        show('  column part', [x if i + 1 in blocks else 0 for i, x in enumerate(e)])
    else:
        print('  no codeword is in reach')
    station.call('clear')


def tour(kind):
    station = Station(kind)
    called('load', station.call('load', 5, 3))
    show('sheet', A)
    called('set up', station.call('set_up', *A))
    written('dual sheet', station.call('dual', len(A)))
    show('message', [5, 3])
    encoded = station.call('encode', 4, 5, 3)
    written('encoded', encoded)
    word = [int(x) for x in encoded.split()[1:]]
    near, far = spoiled(kind, word, 1, 1), spoiled(kind, spoiled(kind, word, 1, 1), 2, 1)
    inspect(station, word)
    inspect(station, near)
    rescue(station, near, [])
    rescue(station, far, [2])
    rescue(station, far, [2, 3])
    print('tally %d words, %d full errors' % (station.words, station.errors))


def journey(kind):
    station = Station(kind)
    station.call('set_up', *A)
    show('word', station.call('encode', 4, 5, 3).split()[1:])
    for word, blocks in (([8, 12, 1, 4], []), ([8, 12, 2, 4], []), ([8, 12, 2, 4], [2]), ([8, 12, 2, 4], [2, 3])):
        rescue(station, word, blocks)
