"""Books and scripts as bytes, and a generator of lawful scripts over any book."""

HOUSE_EDGES = [(0, 0, 0, 1), (1, 1, 0, 0), (1, 2, 0, 2), (2, 3, 0, 3), (2, 3, 1, 2), (2, 3, 2, 1),
               (3, 4, 0, 4), (4, 5, 0, 3), (2, 6, 0, 1), (3, 6, 0, 1)]
HOUSE_RETREATS = [(1, 1, 1), (2, 6, 2), (3, 6, 2), (4, 5, 3)]

LONGEST_BOOK = 8192
LONGEST_SCRIPT = 16384


def kind(number, edges, retreats):
    """One kind of a book."""
    commands = [[1, number]] + [[2, *edge] for edge in edges] + [[3, *retreat] for retreat in retreats]
    return bytes(byte for command in commands for byte in command)


def full_kind(count):
    """The first `count` edges, and the retreats, of a kind where all numbers are in use.

    Letter 0 leads home by one station, letters 1 to 7 to one station whatever is answered, the others apart."""
    edges = []
    for answer in range(4):
        for station in range(16):
            for letter in range(16):
                to = (station - 1) % 16 if letter == 0 else (station + letter + (answer if letter > 7 else 0)) % 16
                edges.append((station, letter, answer, to))
    return edges[:count], [(station, 0, station) for station in range(1, 16)]


def renamed(edges, retreats, patch):
    """What a device of these edges shows behind a patch."""
    above = [(s, j, a, t) for j, below in enumerate(patch) for (s, l, a, t) in edges if l == below]
    return above, [(s, patch.index(l), rank) for (s, l, rank) in retreats]


def book(kinds):
    return b''.join(kind(number, *parts) for number, parts in enumerate(kinds))


def tables(kinds):
    """For each kind its edges by station and letter, as a dict of answers and successors."""
    made = []
    for edges, _ in kinds:
        table = {}
        for s, l, a, t in edges:
            table.setdefault((s, l), {})[a] = t
        made.append(table)
    return made


def word(number):
    return bytes([number % 256, number // 256])


def send(handle, letter, register=0):
    return bytes([0x20, handle, letter, register])


def ask(handle, letter, *blocks):
    blocks = list(blocks) + [b''] * (4 - len(blocks))
    return bytes([0x21, handle, letter]) + b''.join(word(len(block)) for block in blocks) + b''.join(blocks)


def repeat(register, block):
    return bytes([0x23, register]) + word(len(block)) + block


def run(part, *bindings):
    return bytes([0x24, part, *bindings] + [0xFF] * (8 - len(bindings)))


def put(register, value):
    return bytes([0x25, register, value])


def dec(register):
    return bytes([0x26, register])


def cue(number):
    return bytes([0x27]) + word(number)


def fail(code):
    return bytes([0x28, code])


def part(triples, body):
    """Triples are kind, station in and station out."""
    rest = [(255, 255, 255)] * (8 - len(triples))
    return bytes([0x10, len(triples)]) + bytes(b for t in list(triples) + rest for b in t) + word(len(body)) + body


def times(register, count, block):
    """A loop that runs its block so many times."""
    return put(register, count) + repeat(register, dec(register) + block)


class Writer:
    """Writes random parts and scripts that pass over a book."""

    def __init__(self, kinds, random):
        self.tables = tables(kinds)
        self.random = random
        self.parts = []
        self.ways = {}

    def way(self, kind, station, to):
        """Letters that lead from a station to another, whatever is answered; none if there is no such way."""
        if (kind, station, to) not in self.ways:
            self.ways[kind, station, to] = self.find(kind, station, to)
        return self.ways[kind, station, to]

    def find(self, kind, station, to):
        ways, new = {station: []}, [station]
        while new and to not in ways:
            old, new = new, []
            for at in old:
                for letter in range(16):
                    ends = set(self.tables[kind].get((at, letter), {}).values())
                    if len(ends) == 1 and not ends & ways.keys():
                        end = ends.pop()
                        ways[end] = ways[at] + [letter]
                        new.append(end)
        return ways.get(to)

    def lead(self, kinds, keys, target):
        """Leads every handle to its station in the target; none where one has no way."""
        out = b''
        for handle, (at, to) in enumerate(zip(keys, target)):
            letters = self.way(kinds[handle], at, to)
            if letters is None:
                return None
            out += b''.join(send(handle, letter, self.random.randrange(8)) for letter in letters)
        return out

    def block(self, kinds, keys, target, size, depth):
        """A block of some `size` bytes that leads from the keys to the target; none where it found no way."""
        keys, out = list(keys), b''
        if self.lead(kinds, keys, target) is None:
            return None
        while len(out) < size:
            made = self.command(kinds, keys, size - len(out), depth)
            if made:
                command, after = made
                if self.lead(kinds, after, target) is not None:
                    out, keys = out + command, after
        return out + self.lead(kinds, keys, target)

    def command(self, kinds, keys, size, depth):
        """A random command and the keys after it; none if the one drawn does not fit here."""
        random = self.random
        what = random.choice('sssssaarurvdq')
        handle = random.randrange(len(kinds))
        letters = [l for l in range(16) if (keys[handle], l) in self.tables[kinds[handle]]]
        if what == 's' and letters:
            letter = random.choice(letters)
            ends = set(self.tables[kinds[handle]][keys[handle], letter].values())
            if len(ends) == 1:
                return send(handle, letter, random.randrange(8)), keys[:handle] + list(ends) + keys[handle + 1:]
        if what == 'a' and letters and depth < 8:
            letter = random.choice(letters)
            successors = self.tables[kinds[handle]][keys[handle], letter]
            target = keys[:handle] + [random.choice(list(successors.values()))] + keys[handle + 1:]
            blocks = []
            for answer in range(4):
                block = b''
                if answer in successors:
                    branch = keys[:handle] + [successors[answer]] + keys[handle + 1:]
                    block = self.block(kinds, branch, target, random.randrange(1 + min(size // 4, 60)), depth + 1)
                    if block is None:
                        return None
                blocks.append(block)
            return ask(handle, letter, *blocks), target
        if what == 'r' and depth < 8:
            register = random.randrange(8)
            block = self.block(kinds, keys, keys, random.randrange(1 + min(size // 2, 120)), depth + 1)
            return block and (repeat(register, block + put(register, 0)), keys)
        if what == 'u' and self.parts:
            number = random.randrange(len(self.parts))
            inner = self.parts[number]
            bound = []
            for kind_wanted, station_in, _ in inner:
                fits = [h for h in range(len(kinds)) if kinds[h] == kind_wanted and keys[h] == station_in and h not in bound]
                if not fits:
                    return None
                bound.append(random.choice(fits))
            after = list(keys)
            for outer, (_, _, station_out) in zip(bound, inner):
                after[outer] = station_out
            return run(number, *bound), after
        if what == 'v':
            return put(random.randrange(8), random.randrange(256)), keys
        if what == 'd':
            return dec(random.randrange(8)), keys
        if what == 'q':
            return cue(random.randrange(65536)), keys
        return None

    def part(self, triples, size):
        """A part with a body of some `size` bytes, which later parts may run."""
        kinds = [kind for kind, _, _ in triples]
        ins, outs = [i for _, i, _ in triples], [o for _, _, o in triples]
        body = self.block(kinds, ins, outs, size, 1)
        self.parts.append(triples)
        return part(triples, body)

    def script(self, helpers, main, size):
        """A script of `size` bytes or up to two less: helper parts that share less than half of it, and main.

        Main ends in as many commands that change no key as fill it up."""
        each = max(size // (2 * len(helpers) + 2) - 60, 0)
        out = b''.join(self.part(triples, each) for triples in helpers)
        kinds, away = [kind for kind, _, _ in main], [0] * len(main)
        room = size - len(out) - 28
        body = b''
        while True:
            made = self.command(kinds, away, room - len(body), 1)
            if made:
                command = made[0] + self.lead(kinds, made[1], away)
                if len(body) + len(command) > room - 3:
                    break
                body += command
        body += put(0, 0) * ((room - len(body)) // 3)
        return out + part(main, body)
