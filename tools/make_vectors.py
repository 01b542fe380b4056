#!/usr/bin/env python3
"""Makes crates/vectors/data/dossiers.tsv, the table that the program `vectors` runs.

    tools/make_vectors.py            write the made rows anew, and keep the other rows
    tools/make_vectors.py TABLE      take the other rows from TABLE
    tools/make_vectors.py --check    write nothing; say whether the table is as it would be written

A row is a name, a dossier in hexadecimal digits and the line that is expected for it, with tabs between.
The name of a made row begins with 'made: '. The other rows come first; they were given with their lines. Of TABLE only the
rows whose evidence is weighed as a barrier paper are left out; of all others the judge of this file has to give the same line.

The judge here is written from docs/FORMAT.md, docs/RULES.md and docs/REFUSALS.md, and shares nothing with the program.
The made rows are always the same: what is random in them comes from a fixed seed.
"""
import os
import random
import sys

TABLE = os.path.join(os.path.dirname(os.path.abspath(__file__)), '..', 'crates', 'vectors', 'data', 'dossiers.tsv')
MADE = 'made: '
MILLION = 1_000_000

# The judge.


class Refused(Exception):
    def __init__(self, number, place, part):
        self.line = f'REFUSED {number} AT {place} IN {part}'


def field(word, high, low):
    return word >> low & (1 << high - low + 1) - 1


def kind(word):
    return field(word, 31, 28)


def count_words(words, most):
    if not words:
        raise Refused(2, 0, 'WORDS')
    if len(words) > most:
        raise Refused(3, len(words), 'WORDS')


def need(holds, number, place):
    if not holds:
        raise Refused(number, place, 'PAPER')


def read_plant(words):
    """Tanks, valves, and for each direction a dictionary from (valve, tank) to the weight."""
    count_words(words, 4096)
    head = words[0]
    need(kind(head) == 1, 4, 0)
    need(field(head, 27, 14) == 0, 6, 0)
    tanks, valves = field(head, 13, 7), field(head, 6, 0)
    need(tanks in range(1, 65) and valves in range(1, 65), 7, 0)
    weights = {2: {}, 3: {}}
    before = None
    for at, arc in enumerate(words[1:], 1):
        need(kind(arc) in (2, 3), 4, at)
        need(field(arc, 15, 10) == 0, 6, at)
        valve, tank, weight = field(arc, 27, 22), field(arc, 21, 16), field(arc, 9, 0)
        need(valve < valves and tank < tanks and weight > 0, 7, at)
        need(before is None or before < field(arc, 31, 16), 8, at)
        before = field(arc, 31, 16)
        weights[kind(arc)][valve, tank] = weight
    return tanks, valves, weights[2], weights[3]


def read_filling(words):
    for at, word in enumerate(words):
        need(field(word, 21, 20) == 0, 6, at)
        need(field(word, 27, 22) == at, 8, at)
    return [field(word, 19, 0) for word in words]


def check_question(tanks, source, target):
    for which, filling in enumerate((source, target)):
        if len(filling) != tanks:
            raise Refused(10, which, 'QUESTION')
    for which, filling in enumerate((source, target)):
        for tank, amount in enumerate(filling):
            if amount > MILLION:
                raise Refused(11, 64 * which + tank, 'QUESTION')


def read_totals(words, valves):
    """The divisor, and a list of (valve, total)."""
    count_words(words, 8192)
    head = words[0]
    need(kind(head) == 4, 4, 0)
    need(field(head, 27, 20) == 0, 6, 0)
    divisor = field(head, 19, 0)
    need(1 <= divisor <= MILLION, 7, 0)
    totals = []
    for at, word in enumerate(words[1:], 1):
        need(kind(word) == 5, 4, at)
        need(field(word, 21, 20) == 0, 6, at)
        valve, total = field(word, 27, 22), field(word, 19, 0)
        need(valve < valves and 1 <= total <= MILLION, 7, at)
        need(not totals or totals[-1][0] < valve, 8, at)
        totals.append((valve, total))
    return divisor, totals


def outside_greatest_part(tanks, valves, chosen, filling, takes, gives):
    """The valves of `chosen` that no round finds."""
    found = []
    for _ in range(valves):
        fed = [tank for tank in range(tanks) if filling[tank] > 0 or any((valve, tank) in gives for valve in found)]
        found = [valve for valve in chosen if all(tank in fed for tank in range(tanks) if (valve, tank) in takes)]
    return [valve for valve in chosen if valve not in found]


def weigh_totals(plant, source, target, divisor, totals):
    tanks, valves, takes, gives = plant
    for tank in range(tanks):
        left = divisor * source[tank] + sum(total * gives.get((valve, tank), 0) for valve, total in totals)
        right = divisor * target[tank] + sum(total * takes.get((valve, tank), 0) for valve, total in totals)
        if left != right:
            raise Refused(13, tank, 'WEIGHING')
    chosen = [valve for valve, _ in totals]
    for number, filling, taken, given in ((14, source, takes, gives), (15, target, gives, takes)):
        left_out = outside_greatest_part(tanks, valves, chosen, filling, taken, given)
        if left_out:
            raise Refused(number, min(left_out), 'WEIGHING')


def run_of(words, wanted):
    """The words at the front of one kind, and the others."""
    end = next((at for at, word in enumerate(words) if kind(word) != wanted), len(words))
    return words[:end], words[end:]


def parts_of(dossier):
    """The words of the plant paper, the source, the target and the evidence."""
    words = [int.from_bytes(dossier[at:at + 4], 'big') for at in range(0, len(dossier), 4)]
    first = next((at for at, word in enumerate(words) if kind(word) == 12), len(words))
    source, rest = run_of(words[first:], 12)
    target, evidence = run_of(rest, 13)
    return words[:first], source, target, evidence


def opens_with_case(dossier):
    evidence = parts_of(dossier)[3]
    return bool(evidence) and kind(evidence[0]) == 6


def judge(dossier):
    """The line, without its newline."""
    try:
        if len(dossier) > 65536:
            raise Refused(3, 16384, 'WORDS')
        if len(dossier) % 4:
            raise Refused(1, len(dossier) // 4, 'WORDS')
        paper, source, target, evidence = parts_of(dossier)
        plant = read_plant(paper)
        source, target = read_filling(source), read_filling(target)
        check_question(plant[0], source, target)
        divisor, totals = read_totals(evidence, plant[1])
        weigh_totals(plant, source, target, divisor, totals)
        return 'JOINED'
    except Refused as refused:
        return refused.line


# Writing dossiers.


def word(top, *fields):
    """A word of a kind, from pairs of a value and the lowest bit of its field."""
    return top << 28 | sum(value << low for value, low in fields)


def head(tanks, valves):
    return word(1, (tanks, 7), (valves, 0))


def arc(top, valve, tank, weight):
    return word(top, (valve, 22), (tank, 16), (weight, 0))


def arcs(top, weights):
    return [arc(top, valve, tank, weight) for (valve, tank), weight in sorted(weights.items())]


def plant_paper(tanks, valves, takes, gives):
    return [head(tanks, valves)] + arcs(2, takes) + arcs(3, gives)


def fill(top, amounts):
    return [word(top, (tank, 22), (amount, 0)) for tank, amount in enumerate(amounts)]


def totals_paper(divisor, totals):
    return [word(4, (divisor, 0))] + [word(5, (valve, 22), (total, 0)) for valve, total in totals]


def whole(plant, source, target, evidence):
    return list(plant) + fill(12, source) + fill(13, target) + list(evidence)


def to_bytes(words):
    return b''.join(word.to_bytes(4, 'big') for word in words)


# The made rows.

# Three tanks, two valves: valve 0 takes from tank 0 and gives to tank 1, valve 1 takes from tanks 1 and 2 and gives to tank 2.
PLANT = plant_paper(3, 2, {(0, 0): 1, (1, 1): 1, (1, 2): 1}, {(0, 1): 1, (1, 2): 2})
SOURCE, TARGET = [2, 0, 1], [0, 0, 3]
TOTALS = totals_paper(1, [(0, 2), (1, 2)])
JOINED = whole(PLANT, SOURCE, TARGET, TOTALS)


class Table:
    def __init__(self):
        self.rows = []
        self.seen = set()

    def add(self, name, dossier, expected=None):
        """A row, unless one has the same dossier. Where `expected` is given, it was known before, and the judge has to say the same."""
        dossier = dossier if isinstance(dossier, bytes) else to_bytes(dossier)
        line = judge(dossier)
        if expected is not None and line != expected:
            sys.exit(f'{name}: {line}, expected {expected}')
        if dossier not in self.seen:
            self.seen.add(dossier)
            self.rows.append((MADE + name, dossier.hex(), line))


def changed(words, at, new):
    return words[:at] + [new] + words[at + 1:]


def documented(table):
    """The examples of docs/REFUSALS.md, with the lines that stand there."""
    joined = to_bytes(JOINED)
    say = table.add
    say('the documented dossier', joined, 'JOINED')
    say('the last byte is missing', joined[:-1], 'REFUSED 1 AT 14 IN WORDS')
    say('no evidence words', whole(PLANT, SOURCE, TARGET, []), 'REFUSED 2 AT 0 IN WORDS')
    say('target words before source words', PLANT + fill(13, TARGET) + fill(12, SOURCE) + TOTALS, 'REFUSED 4 AT 6 IN PAPER')
    say('evidence is one case word', whole(PLANT, SOURCE, TARGET, [0x60000000]), 'REFUSED 4 AT 0 IN PAPER')
    say('arc with an unnamed bit', changed(JOINED, 1, 0x20000401), 'REFUSED 6 AT 1 IN PAPER')
    say('arc of weight 0', changed(JOINED, 1, 0x20000000), 'REFUSED 7 AT 1 IN PAPER')
    say('a total of a valve that is not there', JOINED + [0x50800001], 'REFUSED 7 AT 3 IN PAPER')
    say('an intake arc after the outlet arcs', JOINED[:6] + [0x20010001] + JOINED[6:], 'REFUSED 8 AT 6 IN PAPER')
    say('two source words exchanged', JOINED[:7] + [JOINED[8], JOINED[7]] + JOINED[9:], 'REFUSED 8 AT 1 IN PAPER')
    say('the last source word is missing', JOINED[:8] + JOINED[9:], 'REFUSED 10 AT 0 IN QUESTION')
    say('the last target amount is 1000001', changed(JOINED, 11, 0xd08f4241), 'REFUSED 11 AT 66 IN QUESTION')
    say('the last total is 1', changed(JOINED, 14, 0x50400001), 'REFUSED 13 AT 1 IN WEIGHING')
    say('the culture is missing at the source', whole(PLANT, [2, 0, 0], [0, 0, 2], TOTALS), 'REFUSED 14 AT 1 IN WEIGHING')
    say('the last firing leaves something', [0x10000081, 0x20000002, 0x30000001, 0xc0000001, 0xd0000000, 0x40000001, 0x50000001],
        'REFUSED 15 AT 0 IN WEIGHING')
    half = plant_paper(2, 1, {(0, 0): 2}, {(0, 1): 2})
    say('half a charge', whole(half, [1, 0], [0, 1], totals_paper(2, [(0, 1)])), 'JOINED')
    say('half a charge at scale 1', whole(half, [1, 0], [0, 1], totals_paper(1, [(0, 1)])))
    say('nothing moves', whole(PLANT, [0, 0, 0], [0, 0, 0], totals_paper(1, [])), 'JOINED')


def lengths(table):
    joined = to_bytes(JOINED)
    table.add('empty input', b'', 'REFUSED 2 AT 0 IN WORDS')
    for size in (1, 2, 3):
        table.add(f'bytes: {size}', joined[:size], 'REFUSED 1 AT 0 IN WORDS')
    for size in (4, 5, 7, 8, 59, 61, 63):
        table.add(f'bytes: {size}', (joined + b'\0\0\0')[:size])
    small = whole(plant_paper(1, 1, {}, {}), [0], [0], totals_paper(1, []))
    table.add('the smallest dossier', small, 'JOINED')
    long = totals_paper(1, [(0, 1)] * 20000)
    for most in (8192, 8193):
        table.add(f'evidence words: {most}', whole(PLANT, SOURCE, TARGET, long[:most]))
    front = len(whole(PLANT, SOURCE, TARGET, []))
    full = to_bytes(whole(PLANT, SOURCE, TARGET, long[:16384 - front]))
    table.add('bytes: 65536', full, f'REFUSED 3 AT {16384 - front} IN WORDS')
    table.add('bytes: 65537', full + b'\x50', 'REFUSED 3 AT 16384 IN WORDS')
    table.add('bytes: 65540', full + b'\x50\0\0\0', 'REFUSED 3 AT 16384 IN WORDS')


def dense_plant(count):
    """A plant paper of `count` arcs on 64 tanks and 64 valves, with what each tank gains when every valve is fired by 1."""
    takes, gives = {}, {}
    for valve in range(64):
        for tank in range(64):
            if len(takes) + len(gives) < count:
                gives[valve, tank] = 2
            if len(takes) + len(gives) < count:
                takes[valve, tank] = 1
    gain = [sum(gives.get((valve, tank), 0) - takes.get((valve, tank), 0) for valve in range(64)) for tank in range(64)]
    return plant_paper(64, 64, takes, gives), gain


def plants(table):
    tail = fill(12, SOURCE) + fill(13, TARGET) + TOTALS
    for tanks in (0, 1, 2, 3, 64, 65, 127):
        table.add(f'tanks in the head: {tanks}', [head(tanks, 2)] + PLANT[1:] + tail)
    for valves in (0, 1, 2, 64, 65, 127):
        table.add(f'valves in the head: {valves}', [head(3, valves)] + PLANT[1:] + tail)
    for bit in (14, 15, 20, 26, 27):
        table.add(f'head with unnamed bit {bit}', changed(JOINED, 0, JOINED[0] | 1 << bit), 'REFUSED 6 AT 0 IN PAPER')
    table.add('head with an unnamed bit and no tanks', changed(JOINED, 0, head(0, 2) | 1 << 14), 'REFUSED 6 AT 0 IN PAPER')
    for top in range(16):
        table.add(f'kind {top} as plant head', changed(JOINED, 0, word(top, (JOINED[0] & 0xfffffff, 0))))
    for top in range(16):
        table.add(f'kind {top} after the plant head', JOINED[:1] + [word(top, (0x00000001, 0))] + JOINED[1:])
    for top in (2, 3):
        at = 1 if top == 2 else 4
        for bit in range(10, 16):
            table.add(f'arc of kind {top} with unnamed bit {bit}', changed(JOINED, at, JOINED[at] | 1 << bit), f'REFUSED 6 AT {at} IN PAPER')
        for weight in (0, 1, 2, 1023):
            table.add(f'arc of kind {top} with weight {weight}', changed(JOINED, at, JOINED[at] & ~0x3ff | weight))
        first = 1 if top == 2 else 6
        for valve, tank in ((1, 2), (2, 0), (0, 3), (63, 0), (1, 63)):
            extra = PLANT[:first] + [arc(top, valve, tank, 1)]
            table.add(f'arc of kind {top} at valve {valve} and tank {tank}', extra + tail)
    table.add('arc with an unnamed bit at a tank that is not there', changed(JOINED, 1, arc(2, 0, 3, 1) | 1 << 10), 'REFUSED 6 AT 1 IN PAPER')
    table.add('falling arc at a tank that is not there', changed(JOINED, 2, arc(2, 0, 3, 1)), 'REFUSED 7 AT 2 IN PAPER')
    table.add('equal intake arcs', JOINED[:2] + JOINED[1:], 'REFUSED 8 AT 2 IN PAPER')
    table.add('intake arcs at one pair with other weights', JOINED[:2] + [JOINED[1] + 1] + JOINED[2:], 'REFUSED 8 AT 2 IN PAPER')
    table.add('equal outlet arcs', JOINED[:6] + JOINED[5:], 'REFUSED 8 AT 6 IN PAPER')
    table.add('intake arcs fall by valve', JOINED[:1] + [JOINED[2], JOINED[1]] + JOINED[3:], 'REFUSED 8 AT 2 IN PAPER')
    table.add('intake arcs fall by tank', JOINED[:2] + [JOINED[3], JOINED[2]] + JOINED[4:], 'REFUSED 8 AT 3 IN PAPER')
    table.add('outlet arcs fall', JOINED[:4] + [JOINED[5], JOINED[4]] + JOINED[6:], 'REFUSED 8 AT 5 IN PAPER')
    table.add('outlet arcs before intake arcs', JOINED[:1] + JOINED[4:6] + JOINED[1:4] + JOINED[6:], 'REFUSED 8 AT 3 IN PAPER')
    table.add('no arcs, nothing moves', whole(plant_paper(3, 2, {}, {}), SOURCE, SOURCE, TOTALS), 'JOINED')
    table.add('no arcs, something moves', whole(plant_paper(3, 2, {}, {}), SOURCE, TARGET, TOTALS), 'REFUSED 13 AT 0 IN WEIGHING')
    for count in (4095, 4096):
        paper, gain = dense_plant(count)
        dossier = whole(paper, [64] * 64, [64 + more for more in gain], totals_paper(1, [(valve, 1) for valve in range(64)]))
        table.add(f'plant words: {len(paper)}', dossier, 'JOINED' if count == 4095 else 'REFUSED 3 AT 4097 IN WORDS')


def fillings(table):
    for top, at in ((12, 6), (13, 9)):
        name = 'source' if top == 12 else 'target'
        for bit in (20, 21):
            table.add(f'{name} word with unnamed bit {bit}', changed(JOINED, at + 1, JOINED[at + 1] | 1 << bit), 'REFUSED 6 AT 1 IN PAPER')
        table.add(f'{name} word out of turn with an unnamed bit', changed(JOINED, at, JOINED[at + 1] | 1 << 20), 'REFUSED 6 AT 0 IN PAPER')
        for tank in (0, 2, 63):
            table.add(f'{name} word 1 names tank {tank}', changed(JOINED, at + 1, word(top, (tank, 22))), 'REFUSED 8 AT 1 IN PAPER')
        table.add(f'{name} word doubled', JOINED[:at + 1] + JOINED[at:], 'REFUSED 8 AT 1 IN PAPER')
        for amount in (MILLION, MILLION + 1, 2 ** 20 - 1):
            for tank in (0, 2):
                table.add(f'{name} amount {amount} in tank {tank}', changed(JOINED, at + tank, word(top, (tank, 22), (amount, 0))))
    table.add('no source words and no others', PLANT, 'REFUSED 10 AT 0 IN QUESTION')
    table.add('no source words', PLANT + fill(13, TARGET) + TOTALS, 'REFUSED 4 AT 6 IN PAPER')
    table.add('no target words', PLANT + fill(12, SOURCE) + TOTALS, 'REFUSED 10 AT 1 IN QUESTION')
    table.add('source words again after target words', PLANT + fill(12, SOURCE) + fill(13, TARGET) + fill(12, SOURCE) + TOTALS,
              'REFUSED 4 AT 0 IN PAPER')
    table.add('source words inside target words', JOINED[:10] + JOINED[6:7] + JOINED[10:], 'REFUSED 10 AT 1 IN QUESTION')
    table.add('source words after the evidence', JOINED + fill(12, SOURCE), 'REFUSED 4 AT 3 IN PAPER')
    table.add('no plant paper', JOINED[6:], 'REFUSED 2 AT 0 IN WORDS')
    for name, source, target in (
        ('source too short', [2, 0], TARGET), ('source too long', [2, 0, 1, 0], TARGET), ('target too short', SOURCE, [0, 0]),
        ('target too long', SOURCE, [0, 0, 3, 0]), ('both too short', [2, 0], [0, 0]), ('both too long', [2, 0, 1, 0], [0, 0, 3, 0]),
        ('target too short, source amount beyond', [MILLION + 1, 0, 1], [0, 0]), ('amounts beyond in source and target', [2, 0, MILLION + 1], [MILLION + 1, 0, 3]),
        ('amount beyond in the target, unbalanced', [3, 0, 1], [0, MILLION + 1, 3]),
    ):
        table.add(name, whole(PLANT, source, target, TOTALS))
    table.add('amount beyond and no evidence', whole(PLANT, SOURCE, [0, 0, MILLION + 1], []), 'REFUSED 11 AT 66 IN QUESTION')
    wide = plant_paper(64, 1, {}, {})
    table.add('64 source words and 64 target words', whole(wide, [MILLION] * 64, [MILLION] * 64, totals_paper(MILLION, [(0, MILLION)])), 'JOINED')
    for name, top, at in (('source', 12, 1), ('target', 13, 65)):
        words = whole(wide, [0] * 64, [0] * 64, totals_paper(1, []))
        table.add(f'a 65th {name} word', words[:at + 64] + [word(top)] + words[at + 64:], 'REFUSED 8 AT 64 IN PAPER')
        table.add(f'{name} amount beyond in tank 63', changed(words, at + 63, word(top, (63, 22), (MILLION + 1, 0))),
                  f'REFUSED 11 AT {63 if top == 12 else 127} IN QUESTION')


def evidences(table):
    front = whole(PLANT, SOURCE, TARGET, [])
    for top in range(16):
        table.add(f'kind {top} opens the evidence', front + [word(top, (1, 0))] + TOTALS[1:])
    for top in range(16):
        table.add(f'kind {top} after the totals head', front + TOTALS[:1] + [word(top, (2, 0))])
    for bit in range(20, 28):
        table.add(f'totals head with unnamed bit {bit}', changed(JOINED, 12, JOINED[12] | 1 << bit), 'REFUSED 6 AT 0 IN PAPER')
    for bit in (20, 21):
        table.add(f'total with unnamed bit {bit}', changed(JOINED, 14, JOINED[14] | 1 << bit), 'REFUSED 6 AT 2 IN PAPER')
    table.add('totals head with an unnamed bit and divisor 0', changed(JOINED, 12, word(4, (1, 20))), 'REFUSED 6 AT 0 IN PAPER')
    table.add('total 0 with an unnamed bit', changed(JOINED, 13, word(5, (1, 20))), 'REFUSED 6 AT 1 IN PAPER')
    table.add('total of a valve that is not there, falling', changed(JOINED, 14, word(5)), 'REFUSED 7 AT 2 IN PAPER')
    still = plant_paper(1, 64, {}, {})
    for divisor in (0, 1, 2, MILLION, MILLION + 1, 2 ** 20 - 1):
        table.add(f'divisor {divisor}', whole(still, [5], [5], totals_paper(divisor, [(0, 1)])))
    for total in (0, 1, 2, MILLION, MILLION + 1, 2 ** 20 - 1):
        table.add(f'total {total}', whole(still, [5], [5], totals_paper(1, [(63, total)])))
    for name, chosen in (('equal', [3, 3]), ('falling', [4, 3]), ('falling at the end', [1, 2, 63, 62]), ('of all valves', list(range(64)))):
        table.add(f'totals {name}', whole(still, [5], [5], totals_paper(1, [(valve, 1) for valve in chosen])))
    table.add('totals of all valves and one more', whole(still, [5], [5], totals_paper(1, [(valve, 1) for valve in [*range(64), 63]])))
    for valve in (1, 2, 63):
        table.add(f'a total of valve {valve}, of two', whole(PLANT, SOURCE, TARGET, totals_paper(1, [(0, 2), (valve, 2)])))
    table.add('a second totals head', JOINED + TOTALS, 'REFUSED 4 AT 3 IN PAPER')


def ring(size, amount=1):
    takes = {(valve, valve): amount for valve in range(size)}
    gives = {(valve, (valve + 1) % size): amount for valve in range(size)}
    return plant_paper(size, size, takes, gives)


def at_tank(size, tank, amount):
    return [amount if at == tank else 0 for at in range(size)]


def weighings(table):
    say = table.add
    for size in (2, 3, 17, 64):
        every = totals_paper(1, [(valve, 1) for valve in range(size)])
        say(f'ring of {size}, once round from tank 0', whole(ring(size), at_tank(size, 0, 1), at_tank(size, 0, 1), every), 'JOINED')
        say(f'ring of {size}, once round from the last tank', whole(ring(size), at_tank(size, size - 1, 1), at_tank(size, size - 1, 1), every), 'JOINED')
        say(f'ring of {size}, once round and empty', whole(ring(size), [0] * size, [0] * size, every), 'REFUSED 14 AT 0 IN WEIGHING')
        part = totals_paper(1, [(valve, 1) for valve in range(size - 1)])
        say(f'ring of {size}, from tank 0 to the last', whole(ring(size), at_tank(size, 0, 1), at_tank(size, size - 1, 1), part), 'JOINED')
        say(f'ring of {size}, one total off', whole(ring(size), at_tank(size, 0, 1), at_tank(size, 0, 1), every[:-1] + [every[-1] + 1]))
    # Valves numbered against the way: each round of rising numbers finds one valve more.
    size = 64
    takes = {(valve, size - 1 - valve): 1 for valve in range(size)}
    gives = {(valve, (size - valve) % size): 1 for valve in range(size)}
    every = totals_paper(1, [(valve, 1) for valve in range(size)])
    back = plant_paper(size, size, takes, gives)
    say('ring of 64 numbered backwards', whole(back, at_tank(size, 0, 1), at_tank(size, 0, 1), every), 'JOINED')
    say('ring of 64 numbered backwards and empty', whole(back, [0] * size, [0] * size, every), 'REFUSED 14 AT 0 IN WEIGHING')
    # Closed loops that only feed themselves.
    loop = plant_paper(1, 1, {(0, 0): 1}, {(0, 0): 1})
    one = totals_paper(1, [(0, 1)])
    say('a valve round one tank, empty', whole(loop, [0], [0], one), 'REFUSED 14 AT 0 IN WEIGHING')
    say('a valve round one tank, with something in it', whole(loop, [1], [1], one), 'JOINED')
    say('a valve round one tank, not fired', whole(loop, [0], [0], totals_paper(1, [])), 'JOINED')
    pair = plant_paper(3, 3, {(0, 0): 1, (1, 1): 1, (2, 2): 1}, {(0, 1): 1, (1, 0): 1, (2, 2): 1})
    three = totals_paper(1, [(0, 1), (1, 1), (2, 1)])
    for name, filling in (('both empty', [0, 0, 0]), ('the first empty', [0, 0, 1]), ('the second empty', [1, 0, 0]), ('none empty', [0, 1, 1])):
        say(f'two closed loops, {name}', whole(pair, filling, filling, three))
    say('the second loop alone, empty', whole(pair, [1, 0, 0], [1, 0, 0], totals_paper(1, [(2, 1)])), 'REFUSED 14 AT 2 IN WEIGHING')
    # A loop that can be entered and not left empty: it grows only where something stays.
    grow = plant_paper(2, 2, {(0, 0): 1, (1, 1): 2}, {(0, 1): 1, (1, 1): 1})
    say('the last firing would leave something', whole(grow, [1, 0], [0, 0], totals_paper(1, [(0, 1), (1, 1)])), 'REFUSED 15 AT 0 IN WEIGHING')
    say('the same with something left', whole(grow, [2, 0], [0, 1], totals_paper(1, [(0, 2), (1, 1)])), 'JOINED')
    early = plant_paper(3, 2, {(0, 0): 1, (1, 1): 2}, {(0, 2): 1, (1, 1): 1})
    say('only the second valve cannot start from the target', whole(early, [1, 1, 0], [0, 0, 1], totals_paper(1, [(0, 1), (1, 1)])),
        'REFUSED 15 AT 1 IN WEIGHING')
    both = plant_paper(2, 2, {(0, 0): 1, (1, 1): 2}, {(0, 0): 1, (1, 1): 1})
    say('from neither end', whole(both, [0, 1], [0, 0], totals_paper(1, [(0, 1), (1, 1)])), 'REFUSED 14 AT 0 IN WEIGHING')
    say('from neither end, and unbalanced', whole(both, [0, 2], [0, 0], totals_paper(1, [(0, 1), (1, 1)])), 'REFUSED 13 AT 1 IN WEIGHING')
    # A source from nothing and a drain to nothing.
    taps = plant_paper(1, 2, {(1, 0): 3}, {(0, 0): 5})
    say('valves that only give and only take', whole(taps, [0], [0], totals_paper(7, [(0, 3), (1, 5)])), 'JOINED')
    say('a valve that only gives', whole(taps, [0], [5], totals_paper(1, [(0, 1)])), 'JOINED')
    say('a valve that only takes', whole(taps, [3], [0], totals_paper(1, [(1, 1)])), 'JOINED')
    say('a valve that only takes, from nothing', whole(taps, [0], [0], totals_paper(1, [(1, 1)])), 'REFUSED 13 AT 0 IN WEIGHING')
    # The largest sums, and tanks that miss them by one.
    big = plant_paper(64, 64, {(valve, tank): 1023 for valve in range(31) for tank in range(64)}, {(valve + 31, tank): 1023 for valve in range(31) for tank in range(64)})
    most = totals_paper(MILLION, [(valve, MILLION) for valve in range(62)])
    say('the largest sums', whole(big, [MILLION] * 64, [MILLION] * 64, most), 'JOINED')
    for tank in (0, 63):
        say(f'the largest sums, tank {tank} one off', whole(big, [MILLION] * 64, [MILLION - (at == tank) for at in range(64)], most),
            f'REFUSED 13 AT {tank} IN WEIGHING')
    say('the largest sums, a total one off', whole(big, [MILLION] * 64, [MILLION] * 64, most[:-1] + [most[-1] - 1]), 'REFUSED 13 AT 0 IN WEIGHING')


def random_plant(chance, tanks, valves):
    takes, gives = {}, {}
    for valve in range(valves):
        for tank in range(tanks):
            if chance.random() < 0.35:
                takes[valve, tank] = chance.randint(1, 4)
            if chance.random() < 0.35:
                gives[valve, tank] = chance.randint(1, 4)
    return takes, gives


def random_walk(chance, tanks, valves, takes, gives):
    """Scale, source, target and totals of a walk that is really walked; None where nothing can be fired."""
    scale = chance.randint(1, 4)
    source = [chance.choice((0, 0, 1, 3, 8)) for _ in range(tanks)]
    filling = [scale * amount for amount in source]
    totals = {}
    for _ in range(60):
        valve = chance.randrange(valves)
        amount = chance.randint(1, 3)
        if any(filling[tank] < amount * takes.get((valve, tank), 0) for tank in range(tanks)):
            continue
        for tank in range(tanks):
            filling[tank] += amount * (gives.get((valve, tank), 0) - takes.get((valve, tank), 0))
        totals[valve] = totals.get(valve, 0) + amount
        if len(totals) > 1 and all(amount % scale == 0 for amount in filling) and chance.random() < 0.3:
            break
    if not totals or any(amount % scale for amount in filling) or max(filling) > MILLION:
        return None
    return scale, source, [amount // scale for amount in filling], sorted(totals.items())


def walks(table):
    """Totals of walks, which are always accepted, and each once more with a small damage."""
    chance = random.Random(20240917)
    made = 0
    while made < 40:
        tanks, valves = chance.randint(1, 7), chance.randint(1, 7)
        takes, gives = random_plant(chance, tanks, valves)
        walk = random_walk(chance, tanks, valves, takes, gives)
        if walk is None:
            continue
        made += 1
        scale, source, target, totals = walk
        words = whole(plant_paper(tanks, valves, takes, gives), source, target, totals_paper(scale, totals))
        table.add(f'walk {made}', words, 'JOINED')
        at = chance.randrange(len(words))
        way = made % 4
        if way == 0:
            table.add(f'walk {made}, a bit of word {at} turned', changed(words, at, words[at] ^ 1 << chance.randrange(32)))
        elif way == 1:
            table.add(f'walk {made}, word {at} left out', words[:at] + words[at + 1:])
        elif way == 2:
            table.add(f'walk {made}, word {at} doubled', words[:at + 1] + words[at:])
        else:
            empty = whole(plant_paper(tanks, valves, takes, gives), [0] * tanks, [0] * tanks, totals_paper(scale, totals))
            table.add(f'walk {made}, from nothing to nothing', empty)
    # Totals that balance by themselves, from and to fillings that are almost empty: many cannot start.
    made = 0
    while made < 24:
        tanks, valves = chance.randint(2, 6), chance.randint(2, 6)
        takes, gives = random_plant(chance, tanks, valves)
        totals = [(valve, chance.randint(1, 3)) for valve in range(valves) if chance.random() < 0.7]
        gain = [sum(total * (gives.get((valve, tank), 0) - takes.get((valve, tank), 0)) for valve, total in totals) for tank in range(tanks)]
        source = [max(0, -more) for more in gain]
        target = [max(0, more) for more in gain]
        if not totals or not any(gain):
            continue
        made += 1
        table.add(f'balanced totals {made}', whole(plant_paper(tanks, valves, takes, gives), source, target, totals_paper(1, totals)))


def made_rows():
    table = Table()
    for part in (documented, lengths, plants, fillings, evidences, weighings, walks):
        part(table)
    return table.rows


def read_rows(path):
    with open(path, encoding='ascii') as file:
        return [tuple(line.rstrip('\n').split('\t')) for line in file]


def given_rows(path):
    rows = []
    for row in read_rows(path):
        name, digits, expected = row
        if name.startswith(MADE):
            continue
        line = judge(bytes.fromhex(digits))
        if line == expected:
            rows.append(row)
        elif not opens_with_case(bytes.fromhex(digits)):
            sys.exit(f'{name}: {line}, expected {expected}')
    return rows


def main(words):
    is_check = words == ['--check']
    path = TABLE if is_check or not words else words[0]
    given, made = given_rows(path), made_rows()
    rows = given + made
    text = ''.join('\t'.join(row) + '\n' for row in rows)
    if is_check:
        with open(TABLE, encoding='ascii') as file:
            if file.read() != text:
                sys.exit('the table is not what this script writes')
    else:
        with open(TABLE, 'w', encoding='ascii') as file:
            file.write(text)
    print(f'{len(rows)} rows, {len(made)} of them made, {len(text)} bytes')


if __name__ == '__main__':
    main(sys.argv[1:])
