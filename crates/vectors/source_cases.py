"""The cases of the batch sources, for make_cases.py.

    batches HEX COLUMN / COLUMN ..
    entries HEX COLUMN / COLUMN ..

The bytes of a case are the head of a trace file, then batches; or, for `entries`, a pool (its length and its
bytes) and entries, each as numbers: column, repetition, definition, and 0 for no value, 1 and a word, 2 and the
three numbers of an INT96, 3 and the place and length of a run. A column is its triplets, `REPETITION.DEFINITION`
and `=VALUE` where there is one, then `end`, or `fault CODE PLACE`. A word is decimal, an INT96 has its numbers
with commas between them, a run is its bytes in hexadecimal, in quotes.

What is expected comes from a reader of its own, written from the description of the format.
"""
import random

WORD, INT96_KIND, RUN = range(3)
KIND_OF_TYPE = {0: WORD, 1: WORD, 2: WORD, 3: INT96_KIND, 4: WORD, 5: WORD, 6: RUN, 7: RUN}
LONGEST_RUN = 2**20


class Fault(Exception):
    """Why a batch or an entry is bad."""


def column_facts(columns):
    """Of each column its kind and its greatest levels, from its path and leaf."""
    facts = []
    for path, leaf in columns:
        repetitions = [node[1] for node in path]
        facts.append((KIND_OF_TYPE[leaf[0]], sum(r > 0 for r in repetitions), sum(r == 2 for r in repetitions)))
    return facts


class Batches:
    """The triplets of batches, column by column, and how all columns end."""

    def __init__(self, facts, data, read_number, refused):
        self.facts, self.data, self.read_number, self.refused = facts, data, read_number, refused
        self.columns, self.ending, at = [[] for _ in facts], "end", 0
        while at < len(data):
            self.at = at
            try:
                column, triplets = self.batch()
            except Fault as fault:
                self.ending = f"fault {fault} {at}"
                break
            self.columns[column] += triplets
            at = self.at

    def number(self):
        try:
            value, self.at = self.read_number(self.data, self.at)
            return value
        except self.refused as refusal:
            raise Fault({"truncated": 2, "badform": 3}[str(refusal)])

    def take(self, count):
        if count > len(self.data) - self.at:
            raise Fault(2)
        self.at += count
        return self.data[self.at - count:self.at]

    def batch(self):
        column = self.number()
        if column >= len(self.facts):
            raise Fault(4)
        kind, definition, repetition = self.facts[column]
        count = self.number()
        if count == 0:
            raise Fault(4)
        # the count of a column without levels is bounded by its values alone
        definitions = self.take(count) if definition else None
        repetitions = self.take(count) if repetition else None
        full = sum(d == definition for d in definitions) if definition else count
        if self.number() != full:
            raise Fault(5)
        values = [self.value(kind) for _ in range(min(full, len(self.data)))]
        values.reverse()
        triplets = []
        for i in range(count):
            d = definitions[i] if definition else 0
            r = repetitions[i] if repetition else 0
            triplets.append(f"{r}.{d}" + (f"={values.pop()}" if d == definition else ""))
        return column, triplets

    def value(self, kind):
        if kind == WORD:
            return str(self.number())
        if kind == INT96_KIND:
            parts = []
            for _ in range(3):
                parts.append(self.number())
                if parts[-1] >= 2**32:
                    raise Fault(3)
            return ",".join(map(str, parts))
        length = self.number()
        if length > LONGEST_RUN:
            raise Fault(6)
        return f"'{self.take(length).hex()}'"


def entry_columns(facts, pool, entries):
    """The same of entries (column, repetition, definition, value or None)."""
    columns, ending = [[] for _ in facts], "end"
    for at, (column, repetition, definition, value) in enumerate(entries):
        try:
            if column >= len(facts):
                raise Fault(4)
            kind, most, _ = facts[column]
            if (value is not None) != (definition == most) or (value and value[0] != kind):
                raise Fault(5)
            shown = ""
            if value and kind == RUN:
                place, length = value[1:]
                if length > LONGEST_RUN or place + length > len(pool):
                    raise Fault(6)
                shown = f"='{pool[place:place + length].hex()}'"
            elif value:
                shown = "=" + ",".join(map(str, value[1:]))
        except Fault as fault:
            ending = f"fault {fault} {at}"
            break
        columns[column].append(f"{repetition}.{definition}{shown}")
    return columns, ending


def told(columns, ending):
    return " / ".join(" ".join(column + [ending]) for column in columns)


class Sources:
    """Makes the cases, with the tools of the script that imports this."""

    def __init__(self, tools):
        self.tools = tools
        leaf, number = tools["leaf"], tools["number"]
        self.number = number
        body = lambda physical: (physical, 0, 0, 0, 0)
        # a required word, an optional INT96, a repeated run, an optional list of optional words
        self.schema = (b"t", [
            leaf(name=b"w"),
            leaf(name=b"i", repetition=1, body=body(3)),
            leaf(name=b"r", repetition=2, body=body(6)),
            (b"l", 1, 4, [(b"list", 2, 0, [leaf(name=b"e", repetition=1, body=body(2))])]),
        ])
        self.facts = column_facts(list(tools["columns"](self.schema[1], [])))
        assert self.facts == [(WORD, 0, 0), (INT96_KIND, 1, 0), (RUN, 1, 1), (WORD, 3, 1)], self.facts

    def head(self, size):
        text, image, number = self.tools["text"], self.tools["image"], self.number
        return text(image(self.schema)) + text(b"") + number(0) + number(size)

    def batch(self, column, triplets):
        """A batch of (repetition, definition, value) triplets; a run's value is bytes."""
        kind, definition, repetition = self.facts[column]
        out = self.number(column) + self.number(len(triplets))
        if definition:
            out += bytes(d for _, d, _ in triplets)
        if repetition:
            out += bytes(r for r, _, _ in triplets)
        values = [value for _, d, value in triplets if d == definition]
        out += self.number(len(values))
        for value in values:
            if kind == RUN:
                out += self.number(len(value)) + value
            else:
                out += b"".join(self.number(part) for part in (value if kind == INT96_KIND else [value]))
        return out

    def random_triplets(self, rng, column, count):
        kind, definition, repetition = self.facts[column]
        triplets = []
        for _ in range(count):
            d = rng.choice([definition, definition, rng.randrange(definition + 1)])
            # now and then a level above the greatest, which carries no value
            if definition and rng.random() < 0.05:
                d = rng.choice([definition + 1, 255])
            r = rng.choice([0, 1, 1, 9]) if repetition else 0
            value = None
            if d == definition:
                words = [0, 1, 127, 128, 2**32 - 1, 2**32, 2**64 - 1]
                value = (rng.choice(words) if kind == WORD
                         else tuple(rng.choice(words[:5]) for _ in range(3)) if kind == INT96_KIND
                         else bytes(rng.randrange(256) for _ in range(rng.choice([0, 1, 3]))))
            triplets.append((r, d, value))
        return triplets

    def good_batches(self):
        rng = random.Random(26)
        yield b""
        for column in range(4):
            for count in (1, 2, 15, 16, 17, 40):
                yield self.batch(column, self.random_triplets(rng, column, count))
        # the same triplets, cut in two ways
        triplets = [self.random_triplets(rng, column, 20) for column in range(4)]
        for cut in (1, 7, 20):
            yield b"".join(self.batch(c, part[at:at + cut]) for at in range(0, 20, cut) for c, part in enumerate(triplets))

    def bad_batches(self):
        """Batches and the fault at their first byte."""
        n = self.number
        bad = b"\x80\x00"
        yield b"\x80", 2
        yield bad, 3
        yield n(4), 4
        yield n(2**64 - 1), 4
        yield n(0), 2
        yield n(0) + bad, 3
        yield n(0) + n(0), 4
        yield n(0) + n(1), 2
        yield n(0) + n(1) + bad, 3
        yield n(0) + n(1) + n(0), 5
        yield n(0) + n(1) + n(2) + n(7) + n(7), 5
        yield n(0) + n(2**64 - 1) + n(2**64 - 1), 2
        yield n(0) + n(2**64 - 1) + n(0), 5
        yield n(0) + n(1) + n(1), 2
        yield n(0) + n(1) + n(1) + bad, 3
        yield n(0) + n(1) + n(1) + n(2**64), 3
        yield n(1) + n(1), 2
        yield n(1) + n(2) + b"\x01", 2
        yield n(1) + n(2**64 - 1) + b"\x01\x01", 2
        yield n(1) + n(1) + b"\x01" + n(0), 5
        yield n(1) + n(1) + b"\x00" + n(1), 5
        yield n(1) + n(1) + b"\x02" + n(1), 5
        yield n(1) + n(1) + b"\x01" + n(1) + n(1) + n(2), 2
        yield n(1) + n(1) + b"\x01" + n(1) + n(2**32) + n(0) + n(0), 3
        yield n(1) + n(1) + b"\x01" + n(1) + n(0) + n(2**32), 3
        yield n(1) + n(1) + b"\x01" + n(1) + n(0) + n(0) + n(2**32), 3
        yield n(2) + n(1) + b"\x01", 2
        yield n(2) + n(1) + b"\x01\x00" + n(1) + n(1), 2
        yield n(2) + n(1) + b"\x01\x00" + n(1) + n(LONGEST_RUN), 2
        yield n(2) + n(1) + b"\x01\x00" + n(1) + n(LONGEST_RUN + 1), 6
        yield n(2) + n(1) + b"\x01\x00" + n(1) + n(2**64 - 1), 6
        yield n(2) + n(1) + b"\x01\x00" + n(1) + bad, 3

    def batches_case(self, data, size):
        read = Batches(self.facts, data, self.tools["read_number"], self.tools["Refused"])
        return self.head(size) + data, told(read.columns, read.ending)

    def batches_cases(self):
        good = list(self.good_batches())
        for at, data in enumerate(good):
            for size in {1, 16, 1 + at % 16}:
                yield self.batches_case(data, size)
        before = self.batch(0, [(0, 0, 5)]) + self.batch(3, [(0, 2, None), (1, 3, 8)])
        for data, code in self.bad_batches():
            for place, front in ((0, b""), (len(before), before)):
                case, answer = self.batches_case(front + data, 3)
                assert answer.endswith(f"fault {code} {place}"), (data, answer)
                yield case, answer
            yield self.batches_case(before + data + before, 16)
        # every cut of a valid string
        whole = b"".join(self.batch(c, self.random_triplets(random.Random(c), c, 3)) for c in (3, 2, 1, 0, 2))
        for end in range(len(whole)):
            yield self.batches_case(whole[:end], 2)

    def entries_case(self, pool, entries, size):
        n = self.number
        data = self.tools["text"](pool)
        for column, repetition, definition, value in entries:
            data += n(column) + n(repetition) + n(definition)
            data += n(0) if value is None else n(value[0] + 1) + b"".join(map(n, value[1:]))
        return self.head(size) + data, told(*entry_columns(self.facts, pool, entries))

    def entries_cases(self):
        rng = random.Random(7)
        pool = b"abcdefgh"
        word, int96, run = (WORD, 5), (INT96_KIND, 1, 2, 2**32 - 1), (RUN, 2, 3)
        yield self.entries_case(b"", [], 1)
        good = [(0, 0, 0, word), (1, 0, 1, int96), (1, 0, 0, None), (2, 0, 1, run), (2, 1, 1, (RUN, 8, 0)), (2, 1, 2, None),
                (3, 0, 3, (WORD, 2**64 - 1)), (3, 7, 255, None), (2, 0, 1, (RUN, 0, 8))]
        for size in (1, 2, 16):
            yield self.entries_case(pool, good, size)
        many = [rng.choice(good) for _ in range(90)]
        for size in (1, 5, 16):
            yield self.entries_case(pool, many, size)
        for bad in [(4, 0, 0, word), (2**32, 0, 0, None), (0, 0, 0, None), (0, 0, 1, word), (1, 0, 0, int96), (1, 0, 2, int96),
                    (0, 0, 0, run), (2, 0, 1, word), (1, 0, 1, word), (3, 0, 2, word), (2, 0, 1, (RUN, 0, 9)),
                    (2, 0, 1, (RUN, 9, 0)), (2, 0, 1, (RUN, 8, 1)), (2, 0, 1, (RUN, 2**64 - 1, 1)),
                    (2, 0, 1, (RUN, 0, LONGEST_RUN + 1)), (2, 0, 1, (RUN, 0, 2**32 - 1))]:
            yield self.entries_case(pool, [bad], 4)
            yield self.entries_case(pool, good + [bad] + good, 4)
