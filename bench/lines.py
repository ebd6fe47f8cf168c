"""Random lines of the console, good and broken, to compare answers and not time."""

import random

from build import Writer, ask, book, cue, dec, fail, full_kind, part, put, renamed, repeat, run, send
from cases import HOUSE, MOVED, ROUND, layer

STORE = ([(0, 0, 0, 1), (1, 1, 0, 0), (1, 2, 0, 1), (1, 2, 1, 1), (1, 3, 0, 0), (1, 3, 3, 1)], [(1, 1, 1)])
KINDS = [
    [HOUSE],
    [HOUSE, STORE],
    [STORE, HOUSE, renamed(*HOUSE, ROUND)],
    [HOUSE, renamed(*HOUSE, ROUND), renamed(*HOUSE, MOVED), HOUSE],
    [HOUSE] * 8,
    [HOUSE, full_kind(300)],
]
# What a projector shows each kind under.
SHOWING = [(HOUSE, ['', 'trail/', layer(ROUND) * 2, layer(ROUND) + 'trail/' + layer(ROUND), 'trail/' * 8, layer(range(16))]),
           (renamed(*HOUSE, ROUND), [layer(ROUND), 'trail/' + layer(ROUND), layer(ROUND) * 7 + 'trail/']),
           (renamed(*HOUSE, MOVED), [layer(MOVED), layer(MOVED) + 'trail/'])]
BAD_DEVICES = ['projector:0', 'projector:zz', 'projector/', 'trail', 'trail/trail', '/projector', 'trail//projector',
               'patch=/projector', 'patch=00/projector', 'trail/' * 9 + 'projector', 'Projector', 'projectors', 'projector:01:02',
               layer(range(15)) + 'projector', layer(range(17)) + 'projector', 'patch/projector', 'patch=0/projector']
BROKEN_MAPS = [layer([16] + [0] * 15), layer([0xFE] * 16), 'trail/' + layer([0] * 15 + [0x80])]
ODD_LINES = ['', '   ', '\t\r', '# remark', '  # go 5', 'gone', 'go', 'go 0', 'go 1 2 3', 'go x', 'go -1', 'go +1', 'go 1001', 'go 1000',
             'go 4294967295', 'go 4294967296', 'go 9999999999', 'go 00000000001', 'go 0000000001', 'go 5 4097', 'go 5 4096', 'go 5 124',
             'go 5 125', 'go 5 0', 'look', 'look 256', 'look 255', 'look 8', 'look 0 0', 'strike 119', 'strike 120', 'strike 4097', 'strike x',
             'strike 1 2', 'ports 1', 'player 1', 'begin 1', 'rig', 'Go 5', 'go\t5', 'script', 'book', 'script 0', 'book 0', 'book 0g', 'rigs',
             'script zz', 'go 5.', 'look -1', 'go 1 1200', 'go 1000 1120', 'go 1000 1119', 'look 00000000000', '\x0bbook', 'book\x0c', 'go #', '\xff']


class Lines:
    """A source of random lines."""

    def __init__(self, seed):
        self.random = random.Random(seed)
        self.kinds = KINDS[0]
        self.ports = [0]

    def spaced(self, digits):
        """Digits with blanks between some and in either case, now and then."""
        if self.random.randrange(4):
            return digits
        split = ''.join(d + self.random.choice(['', '', '', ' ', '\t', '\r', '  ']) for d in digits[:400]) + digits[400:]
        return split.upper() if self.random.randrange(2) else split

    def mutated(self, data):
        """Bytes that differ in a place or a few."""
        rolls = self.random
        data = bytearray(data)
        for _ in range(rolls.choice([1, 1, 1, 2, 4])):
            at = rolls.randrange(len(data)) if data else 0
            what = rolls.randrange(6)
            if what < 3 and data:
                data[at] = rolls.choice([rolls.randrange(256), rolls.randrange(16), rolls.randrange(4), 255,
                                         (data[at] + 1) % 256, (data[at] - 1) % 256, 0x20 + rolls.randrange(9)])
            elif what == 3:
                del data[at:at + rolls.choice([1, 2, 4, 5])]
            elif what == 4:
                data[at:at] = bytes(rolls.randrange(16) for _ in range(rolls.choice([1, 4, 5])))
            else:
                del data[at:]
        return bytes(data)

    def small_book(self):
        """Few commands of small numbers, so that each fault comes often."""
        rolls = self.random
        out = bytearray()
        for number in range(rolls.randrange(4)):
            commands = [[2, s, l, a, rolls.randrange(4)] for s in range(3) for l in range(3) for a in range(2) if rolls.randrange(3) == 0]
            commands += [[3, s, rolls.randrange(3), rolls.randrange(1, 4)] for s in range(1, 4) if rolls.randrange(5)]
            rolls.shuffle(commands)
            out += bytes([1, number]) + bytes(b for c in commands for b in c)
        return bytes(out)

    def loose(self, depth=1):
        """A block of commands that are laid out and mostly in range, and seldom derived."""
        rolls = self.random
        out = b''
        for _ in range(rolls.choice([0, 1, 1, 2, 3, 5])):
            r = rolls.randrange
            what = r(9)
            deep = depth < 10 and r(depth + 1) == 0
            out += (send(r(2), r(8), r(9)) if what < 3 else
                    ask(r(2), r(5), *[self.loose(depth + 1) if deep else b'' for _ in range(4)]) if what == 3 else
                    repeat(r(8), self.loose(depth + 1) if deep else b'') if what == 4 else
                    run(r(3), *[r(3) for _ in range(r(3))]) if what == 5 else
                    put(r(9), r(256)) if what == 6 else dec(r(9)) if what == 7 else rolls.choice([cue(r(65536)), fail(r(256))]))
        return out

    def nested(self, levels, station):
        """A block of so many levels of loops and questions, from a station of a projector back to it."""
        if levels == 0:
            return b''
        if station == 0 and self.random.randrange(2):
            return send(0, 0) + repeat(0, self.nested(levels - 1, 1)) + send(0, 1)
        if station == 1 and self.random.randrange(2):
            stays = self.nested(levels - 1, 2)
            return send(0, 2) + ask(0, 3, send(0, 6), stays + send(0, 6), b'')
        return repeat(1, self.nested(levels - 1, station))

    def derived(self):
        """A part that is laid out and in range, whose blocks, runs or ends often differ from what they should be."""
        rolls = self.random
        ends = [b'', send(0, 6), send(0, 6), send(0, 6), send(0, 4) + send(0, 5) + send(0, 6), send(1, 0) + send(0, 6)]
        body = rolls.choice([
            send(0, 0) + send(0, 2) + ask(0, 3, *[rolls.choice(ends) for _ in range(2)], *rolls.choice([[b''], [], [b'', put(0, 0)]])) + send(0, 1),
            send(0, 0) + repeat(0, rolls.choice([send(0, 2), send(0, 1), send(0, 2) + send(0, 6), b''])) + send(0, 1),
            rolls.choice([b'', send(0, 0), send(1, 0)]) + run(1, *rolls.choice([[0, 1], [1, 0], [0, 0], [1, 1], [1, 2], [0]])),
            send(rolls.randrange(2), 0) + run(0, rolls.randrange(3)) + send(0, 1),
            send(0, 0) + send(0, 2) + send(0, 3),
            rolls.choice([b'', send(0, 0)])])
        head = part([(0, 0, 0)], b'') + part([(0, rolls.choice([0, 0, 1]), 1), (0, 0, 0)], send(0, 0)[:rolls.choice([0, 4])])
        ins = rolls.choice([0, 0, 0, 0, 0, 1])
        return head + part([(0, ins, rolls.choice([0, 0, 0, ins, 1])), (0, 0, 0)], body)

    def good_script(self):
        """A passed script over the kinds of the last good book, whose main keeps few steps and may fail or loop."""
        rolls = self.random
        writer = Writer(self.kinds, rolls)
        helpers = []
        for _ in range(rolls.choice([0, 1, 2, 3, 15, 16]) if rolls.randrange(3) else 0):
            helpers.append([(rolls.randrange(len(self.kinds)), 0, 0) for _ in range(rolls.choice([1, 1, 2]))])
        shown = [k for k, kind in enumerate(self.kinds) if any(kind == s for s, _ in SHOWING) or rolls.randrange(8) == 0]
        self.ports = [rolls.choice(shown or [0]) for _ in range(rolls.choice([1, 1, 1, 2, 3, 8]))]
        if rolls.randrange(3) == 0:
            head = b''.join(writer.part(h, rolls.randrange(40)) for h in helpers)
            letters = []
            for port in range(len(self.ports)):
                letters += [send(port, l) for l in (writer.way(self.ports[port], 0, 1) or [])]
            return head + part([(k, 0, 0) for k in self.ports], b''.join(letters) + fail(rolls.randrange(256)) +
                               b''.join(send(p, l) for p in range(len(self.ports)) if writer.way(self.ports[p], 0, 1) for l in writer.way(self.ports[p], 1, 0)))
        return writer.script(helpers, [(k, 0, 0) for k in self.ports], 200 + 120 * len(helpers) + rolls.randrange(500))

    def device(self, kind):
        rolls = self.random
        fits = [layers for shown, layers in SHOWING if kind < len(self.kinds) and shown == self.kinds[kind]]
        layers = rolls.choice(fits[0] if fits and rolls.randrange(25) else rolls.choice(SHOWING)[1])
        replies = bytes(rolls.randrange(256) for _ in range(rolls.randrange(12)))
        return layers + 'projector' + rolls.choice(['', ':' + replies.hex(), ':' + replies.hex().upper()])

    def rig(self):
        rolls = self.random
        ports = self.ports if rolls.randrange(12) else [0] * rolls.randrange(10)
        devices = [self.device(k if k < len(self.kinds) else 0) for k in ports]
        if devices and rolls.randrange(16) == 0:
            devices[rolls.randrange(len(devices))] = rolls.choice(BAD_DEVICES)
        if devices and rolls.randrange(16) == 0:
            devices[rolls.randrange(len(devices))] = rolls.choice(BROKEN_MAPS) + 'projector'
        return 'rig ' + rolls.choice([' ', '  ', '\t']).join(devices)

    def scene(self):
        """Some lines that go together."""
        rolls = self.random
        what = rolls.randrange(10)
        if what == 0:
            return ['book ' + self.spaced(self.mutated(book(rolls.choice(KINDS))).hex()) for _ in range(6)]
        if what == 1:
            self.kinds = KINDS[0]
            return ['book ' + self.spaced(self.small_book().hex()) for _ in range(6)] + ['book ' + book(self.kinds).hex()]
        if what == 2:
            good = self.good_script()
            return ['script ' + self.spaced(self.mutated(good).hex()) for _ in range(10)]
        if what == 3:
            heads = part([(0, 0, 0)], b'') + part([(0, 0, 0), (0, 0, 0)], b'')
            return ['script ' + (heads[:rolls.choice([0, 28, 56])] + part([(0, 0, 0)] * rolls.randrange(1, 4), self.loose())).hex() for _ in range(10)]
        if what == 4 and rolls.randrange(2):
            self.kinds = [HOUSE]
            return ['book ' + book(self.kinds).hex()] + ['script ' + self.derived().hex() for _ in range(12)]
        if what == 4:
            longest = ['book ' + '00' * rolls.choice([8192, 8193]), 'script ' + '10' * rolls.choice([16384, 16385])]
            self.kinds = [HOUSE]
            return ['book ' + book(self.kinds).hex()] + longest + ['script ' + part([(0, 0, 0)], self.nested(rolls.choice([6, 7, 7, 8]), 0)).hex() for _ in range(6)] + [rolls.choice(ODD_LINES) for _ in range(3)]
        lines = []
        if rolls.randrange(4) == 0:
            self.kinds = rolls.choice(KINDS)
            lines.append('book ' + book(self.kinds).hex())
        lines.append('script ' + self.good_script().hex())
        lines.append(self.rig())
        lines += ['player'] if rolls.randrange(3) else []
        for _ in range(rolls.randrange(1, 4)):
            lines.append('begin')
            for _ in range(rolls.randrange(12)):
                lines.append(self.call())
            lines += ['strike'] if rolls.randrange(3) else []
        return lines

    def call(self):
        rolls = self.random
        what = rolls.randrange(12)
        if what < 6:
            return 'go %d' % rolls.choice([1, 1, 2, 3, 5, 10, 50, 300])
        return ('look %d' % rolls.randrange(9) if what < 8 else 'ports' if what < 10 else
                rolls.choice(['begin', 'strike', 'player', 'player', self.rig()]) if what == 10 else rolls.choice(ODD_LINES))


def made(seed, count):
    """So many random lines or a few more, as bytes."""
    source = Lines(seed)
    lines = ['rig projector' if source.random.randrange(2) else 'begin', 'ports', 'book ' + book(source.kinds).hex()]
    while len(lines) < count:
        lines += source.scene()
    return '\n'.join(lines).encode('latin-1') + (b'\n' if source.random.randrange(2) else b'')
