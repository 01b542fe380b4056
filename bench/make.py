#!/usr/bin/env python3
"""Writes the dossiers that bench/run measures, largest.dossier and smallest.dossier, into a folder: bench/make.py FOLDER

Both are answered JOINED, so that every check is made to its end.

The largest has all that a totals dossier can have: 64 tanks, 64 valves, a plant paper of 4,096 words, 64 source words,
64 target words and 64 totals. Only tank 0 holds something at the source. Each valve needs a tank that only the valve with
the next higher number fills, so that every round over the valves in rising order finds one valve more, the lowest last;
and that tank has a high number where the valve has to be tried often, so that a try goes through most of the tanks.
"""
import os
import sys

SIZE = 64
ARCS = 4095


def words_to_bytes(words):
    return b''.join(word.to_bytes(4, 'big') for word in words)


def fill(kind, amounts):
    return [kind << 28 | tank << 22 | amount for tank, amount in enumerate(amounts)]


def arcs(kind, weights):
    return [kind << 28 | valve << 22 | tank << 16 | weight for (valve, tank), weight in sorted(weights.items())]


def largest():
    # Valve 63 begins and takes from tank 0; valve v takes from tank 63 - v, which valve v + 1 fills.
    takes = {(valve, SIZE - 1 - valve): 1 for valve in range(SIZE)}
    gives = {(valve, (SIZE - valve) % SIZE): 3 for valve in range(SIZE)}
    # Besides, a valve takes from and gives to tanks that are filled before its turn. It gives more than it takes.
    for valve in range(SIZE):
        for tank in range(SIZE - 1 - valve):
            for weights, weight in ((gives, 3), (takes, 1)):
                if len(takes) + len(gives) < ARCS:
                    weights[valve, tank] = weight
    for valve in range(SIZE):
        if len(takes) + len(gives) < ARCS:
            gives.setdefault((valve, SIZE - 1 - valve), 3)
    assert len(takes) + len(gives) == ARCS
    source = [1000] + [0] * (SIZE - 1)
    target = [held + sum(gives.get((valve, tank), 0) - takes.get((valve, tank), 0) for valve in range(SIZE)) for tank, held in enumerate(source)]
    assert min(target) > 0
    head = 1 << 28 | SIZE << 7 | SIZE
    totals = [4 << 28 | 1] + [5 << 28 | valve << 22 | 1 for valve in range(SIZE)]
    return [head] + arcs(2, takes) + arcs(3, gives) + fill(12, source) + fill(13, target) + totals


def smallest():
    return [1 << 28 | 1 << 7 | 1] + fill(12, [0]) + fill(13, [0]) + [4 << 28 | 1]


def main(folder):
    for name, words in (('largest', largest()), ('smallest', smallest())):
        with open(os.path.join(folder, name + '.dossier'), 'wb') as file:
            file.write(words_to_bytes(words))


if __name__ == '__main__':
    if len(sys.argv) != 2:
        sys.exit(__doc__)
    main(sys.argv[1])
