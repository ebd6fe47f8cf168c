"""The cases of the benchmark: for each the lines that are fed to both programs.

Each case is made anew from the same seeds. `scale` below 1 makes it shorter, for callgrind."""

import random

from build import (HOUSE_EDGES, HOUSE_RETREATS, LONGEST_BOOK, LONGEST_SCRIPT, Writer, ask, book, cue, dec, full_kind,
                   part, put, renamed, repeat, send, times)

BOOK_CHECKS = 8_000             # books of nearly 8,192 bytes
SCRIPT_CHECKS = 4_000           # scripts of nearly 16,384 bytes
GROWTH_BYTES = 45_000_000       # bytes of scripts in all, for each length
GROWTH_KIB = [1, 2, 4, 8, 16]
LETTER_CALLS = 10_000           # go 1000, where nearly each step sends a letter
SILENT_CALLS = 60_000           # go 1000, no letter
SINGLE_CALLS = 500_000          # go 1 on eight ports
SHOWS = 3_000                   # evenings of small calls
VARIANTS = 4                    # different books or longest scripts that take turns

HOUSE = (HOUSE_EDGES, HOUSE_RETREATS)
# A patch that turns the letters round, and what a projector is behind it.
ROUND = [15 - letter for letter in range(16)]
# A patch that lets eight letters through, moved by eight.
MOVED = [0xFF] * 8 + list(range(8))


def layer(patch):
    return 'patch=' + bytes(patch).hex() + '/'


def big_book(seed):
    """Nearly 8,192 bytes: the house kind, one kind with all its edges, one with half of them; in a shuffled order."""
    kinds = [HOUSE, full_kind(1024), full_kind(576)]
    rolls = random.Random(seed)
    for edges, retreats in kinds[1:]:
        rolls.shuffle(edges)
        rolls.shuffle(retreats)
    made = book(kinds)
    assert LONGEST_BOOK - 8 < len(made) <= LONGEST_BOOK
    return kinds, made


def big_script(kinds, size, seed):
    writer = Writer(kinds, random.Random(seed))
    helpers = [[(0, 0, 0)], [(1, 0, 3), (0, 0, 1)], [(1, 0, 0), (2, 0, 0)]]
    main = [(0, 0, 0), (1, 0, 0), (2, 0, 0), (0, 0, 0), (1, 0, 0), (2, 0, 0), (0, 0, 0), (1, 0, 0)]
    made = writer.script(helpers, main, size)
    assert size - 4 < len(made) <= size
    return made


def in_turn(variants, count):
    return [variants[i % len(variants)] for i in range(count)]


def check_books(scale):
    count = max(1, int(BOOK_CHECKS * scale))
    books = ['book ' + big_book(seed)[1].hex() for seed in range(VARIANTS)]
    return in_turn(books, count), count


def scripts_of(size, count):
    kinds, made = big_book(0)
    # As many bytes of different scripts for each length, so that short ones do not profit from being known by heart.
    different = VARIANTS * LONGEST_SCRIPT // size
    scripts = ['script ' + big_script(kinds, size, seed).hex() for seed in range(different)]
    return ['book ' + made.hex()] + in_turn(scripts, count), count


def check_scripts(scale):
    return scripts_of(LONGEST_SCRIPT, max(1, int(SCRIPT_CHECKS * scale)))


def check_growth(kib):
    return lambda scale: scripts_of(kib * 1024, max(1, int(GROWTH_BYTES * scale) // (kib * 1024)))


def stage(kinds, body, devices, ports):
    """The lines up to begin, for a script of one part with a projector at each port."""
    main = part([(kind, 0, 0) for kind in ports], body)
    return ['book ' + book(kinds).hex(), 'script ' + main.hex(), 'rig ' + ' '.join(devices), 'player', 'begin']


def go_letters(scale):
    """SENDs in loops that run long: 255 x 255 x 100 rounds of 20 steps."""
    count = max(1, int(LETTER_CALLS * scale))
    rounds = b''.join(send(0, letter, 3) for letter in [0, 2, 6, 1, 0, 2, 6, 2, 6, 1, 0, 1, 0, 2, 6, 2, 6, 1])
    body = times(0, 100, times(1, 255, times(2, 255, rounds)))
    return stage([HOUSE], body, ['projector'], [0]) + ['go 1000'] * count, count


def go_silent(scale):
    """SET, DEC and REPEAT alone, in loops that run long."""
    count = max(1, int(SILENT_CALLS * scale))
    body = times(0, 255, times(1, 255, times(2, 255, put(3, 7) + dec(3) + put(4, 9) + dec(4) + times(5, 3, b''))))
    return stage([HOUSE], body, ['projector'], [0]) + ['go 1000'] * count, count


def go_single(scale):
    """One step a call on eight ports."""
    count = max(1, int(SINGLE_CALLS * scale))
    rounds = b''.join(send(port, letter, 3) for letter in [0, 2, 6, 1] for port in range(8))
    body = times(0, 255, times(1, 255, rounds))
    return stage([HOUSE], body, ['projector'] * 8, [0] * 8) + ['go 1'] * count, count


def evening(scale):
    """Small calls over several scripts and rigs, under layers and not."""
    rolls = random.Random(7)
    kinds = [HOUSE, renamed(*HOUSE, ROUND), renamed(*HOUSE, MOVED)]
    under = {0: ['', 'trail/', 'trail/' + layer(ROUND) + layer(ROUND), layer(ROUND) + 'trail/' + layer(ROUND)],
             1: [layer(ROUND), 'trail/' + layer(ROUND)],
             2: [layer(MOVED), layer(MOVED) + 'trail/trail/']}
    scripts = []
    for number in range(24):
        ports = [rolls.randrange(3) for _ in range(1 + number % 8)]
        writer = Writer(kinds, rolls)
        made = writer.script([[(k, 0, 0)] for k in range(3)], [(k, 0, 0) for k in ports], 400 + 40 * number)
        scripts.append((ports, 'script ' + made.hex()))
    lines = ['book ' + book(kinds).hex()]
    for _ in range(max(1, int(SHOWS * scale))):
        ports, script = rolls.choice(scripts)
        devices = [rolls.choice(under[k]) + 'projector:' + bytes(rolls.randrange(256) for _ in range(8)).hex() for k in ports]
        lines += [script, 'rig ' + ' '.join(devices), 'player']
        for _ in range(2):
            lines.append('begin')
            for _ in range(rolls.randrange(6, 16)):
                lines.append('go %d' % rolls.randrange(1, 6))
                if rolls.randrange(3) == 0:
                    lines.append(rolls.choice(['look %d' % rolls.randrange(len(ports)), 'ports']))
            lines.append('strike')
    return lines, len(lines)


# For each case: what is made, and what is counted in it.
CASES = {
    'book': (check_books, 'check'),
    'script': (check_scripts, 'check'),
    'letters': (go_letters, 'call'),
    'silent': (go_silent, 'call'),
    'single': (go_single, 'call'),
    'evening': (evening, 'line'),
    **{'script-%dk' % kib: (check_growth(kib), 'check') for kib in GROWTH_KIB},
}


def made(name, scale=1.0):
    """The input of a case, how many things it counts, and what they are."""
    make, unit = CASES[name]
    lines, count = make(scale)
    return ''.join(line + '\n' for line in lines).encode(), count, unit
