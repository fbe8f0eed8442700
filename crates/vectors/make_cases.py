#!/usr/bin/env python3
"""Writes the cases that the program `vectors` replays, to the file `stdin` beside this script, and what it
is to print, to `stdout`.

    utf8 HEX yes|no
    number HEX VALUE NEXT | truncated | badform
    image HEX ok NODES COLUMNS COLUMN.. | refused NUMBER
    nodes HEX ok NODE.. | refused NUMBER
    head HEX ok FILE/READ/RECORDS/SIZE/BATCHES | truncated: PART | badform: PART | many records
    plan HEX BUILD / BUILD ..

HEX is bytes in hexadecimal, `-` for none. A node is its name in hexadecimal, its repetition and its
annotation with dots between them, and `:group,FIELDS` or `:leaf,TYPE`. A column is the nodes of its path
with slashes between them, then `:TYPE,LENGTH,SCALE,PRECISION,FLOAT16:MAX DEFINITION:MAX REPETITION`.

The bytes of a plan's case are heads of trace files, each in the place of the batches of the one before it:
one plan is built from each in turn. A build is `ok` or `refused NUMBER`, then the batch size and the shape of
the plan as it stands after (nothing, if none was built): an entry is a letter and the number of the read
node, `v` with `:COLUMN,KIND`, `g` with `:FIELDS`, `o`, `l` and `m` for optional, list and map.

Images are written from trees; what is expected follows from the tree. Images that are refused are made
by hand, with the refusal beside them. A reader of its own, from the description of the format, has to
agree with both, and alone gives the answers to random images.
"""
import pathlib
import random

LIMIT = 2**64


def number(n):
    """Groups of seven bits, lowest first, the top bit set on every byte but the last."""
    out = bytearray()
    while n >= 128:
        out.append(n % 128 + 128)
        n //= 128
    out.append(n)
    return bytes(out)


# UTF-8: the well-formed byte sequences, row by row.

TAIL = (0x80, 0xBF)
ROWS = [
    [(0x00, 0x7F)],
    [(0xC2, 0xDF), TAIL],
    [(0xE0, 0xE0), (0xA0, 0xBF), TAIL],
    [(0xE1, 0xEC), TAIL, TAIL],
    [(0xED, 0xED), (0x80, 0x9F), TAIL],
    [(0xEE, 0xEF), TAIL, TAIL],
    [(0xF0, 0xF0), (0x90, 0xBF), TAIL, TAIL],
    [(0xF1, 0xF3), TAIL, TAIL, TAIL],
    [(0xF4, 0xF4), (0x80, 0x8F), TAIL, TAIL],
]


def well_formed(data):
    """Whether bytes are sequences of the table, one after the other."""
    while data:
        for row in ROWS:
            front = data[:len(row)]
            if len(front) == len(row) and all(a <= b <= z for b, (a, z) in zip(front, row)):
                data = data[len(row):]
                break
        else:
            return False
    return True


def utf8_inputs():
    firsts = [bytes(a for a, _ in row) for row in ROWS]
    lasts = [bytes(z for _, z in row) for row in ROWS]
    yield b""
    yield from firsts + lasts
    yield b"".join(firsts)
    yield b"".join(lasts)
    for row, first, last in zip(ROWS, firsts, lasts):
        # at each place the ends of the range, and the bytes right outside it
        for place, (a, z) in enumerate(row):
            for byte in (a - 1, a, z, z + 1):
                if 0 <= byte <= 255:
                    for whole in (first, last):
                        yield whole[:place] + bytes([byte]) + whole[place + 1:]
        # cut short, alone and before another character
        for end in range(1, len(row)):
            yield last[:end]
            yield last[:end] + b"a"
            yield last[:end] + last
        # a tail too many
        yield last + b"\x80"
    for byte in (0x80, 0xBF, 0xC0, 0xC1, 0xF5, 0xF8, 0xFC, 0xFE, 0xFF):
        yield bytes([byte])
        yield bytes([byte, 0x80, 0x80, 0x80])
    yield b"\xc0\x80"
    yield b"\xe0\x80\x80"
    yield b"\xf0\x80\x80\x80"
    yield b"\xed\xa0\x80\xed\xb0\x80"
    yield "gr\u00f6\u00dfe \u20ac \U0001f600".encode()


def utf8_cases():
    for data in dict.fromkeys(utf8_inputs()):
        answer = well_formed(data)
        try:
            data.decode("utf-8", "strict")
            assert answer, data
        except UnicodeDecodeError:
            assert not answer, data
        yield data, "yes" if answer else "no"


# Numbers.


class Refused(Exception):
    pass


def read_number(data, at):
    """The number at a place and the place after it; `Refused` says which way it is none."""
    end = at
    while end < len(data) and data[end] >= 0x80 and end - at < 9:
        end += 1
    if end == len(data):
        raise Refused("truncated")
    if data[end] >= 0x80:
        raise Refused("badform")
    value = sum((byte & 0x7F) << 7 * i for i, byte in enumerate(data[at:end + 1]))
    if value >= LIMIT or number(value) != data[at:end + 1]:
        raise Refused("badform")
    return value, end + 1


def number_inputs():
    yield b""
    values = {0, 1, 300, LIMIT // 2 - 1, LIMIT // 2, LIMIT - 2, LIMIT - 1}
    for bits in range(7, 64, 7):
        values |= {2**bits - 1, 2**bits, 2**bits + 1}
    for value in sorted(values):
        form = number(value)
        yield form
        yield form + b"\xff\x00"
        # a needless group, and two
        if len(form) < 10:
            yield form[:-1] + bytes([form[-1] | 0x80, 0])
        if len(form) < 9:
            yield form[:-1] + bytes([form[-1] | 0x80, 0x80, 0])
    for form in (number(LIMIT - 1), number(LIMIT // 2), b"\x80" * 12):
        for end in range(len(form)):
            yield form[:end]
    # the tenth byte
    for nine in (b"\x80" * 9, b"\xff" * 9):
        for tenth in (0x00, 0x01, 0x02, 0x03, 0x7F, 0x80, 0x81, 0xFF):
            yield nine + bytes([tenth])
            yield nine + bytes([tenth, 0x00])
    yield number(LIMIT)
    yield number(LIMIT + 1)
    yield number(2 * LIMIT)


def number_cases():
    for data in dict.fromkeys(number_inputs()):
        try:
            value, end = read_number(data, 0)
            yield data, f"{value} {end}"
        except Refused as refusal:
            yield data, str(refusal)


# Schemas. A node is (name, repetition, annotation, body); a body is a list of nodes, or a leaf
# (physical type, length, scale, precision, float16). A schema is (name, nodes).

REQUIRED, OPTIONAL, REPEATED = 0, 1, 2
INT32, INT64, BYTE_ARRAY, FIXED = 1, 2, 6, 7
PLAIN = (INT32, 0, 0, 0, 0)


def text(name):
    return number(len(name)) + name


def node_image(node):
    name, repetition, annotation, body = node
    head = text(name) + number(repetition) + number(annotation)
    if isinstance(body, list):
        return head + number(1) + number(len(body)) + b"".join(map(node_image, body))
    return head + number(0) + b"".join(map(number, body))


def image(schema):
    name, nodes = schema
    return text(name) + number(len(nodes)) + b"".join(map(node_image, nodes))


def node_text(node):
    name, repetition, annotation, _ = node
    return f"{name.hex()}.{repetition}.{annotation}"


def body_text(body):
    return f":group,{len(body)}" if isinstance(body, list) else f":leaf,{body[0]}"


def flat(nodes):
    """The nodes in preorder."""
    for node in nodes:
        yield node
        if isinstance(node[3], list):
            yield from flat(node[3])


def columns(nodes, path):
    for node in nodes:
        if isinstance(node[3], list):
            yield from columns(node[3], path + [node])
        else:
            yield path + [node], node[3]


def column_text(path, leaf):
    definition = sum(node[1] != REQUIRED for node in path)
    repetition = sum(node[1] == REPEATED for node in path)
    return f"{'/'.join(map(node_text, path))}:{','.join(map(str, leaf))}:{definition}:{repetition}"


def image_answer(schema):
    _, nodes = schema
    found = [column_text(path, leaf) for path, leaf in columns(nodes, [])]
    return " ".join(["ok", str(1 + sum(1 for _ in flat(nodes))), str(len(found))] + found)


def nodes_answer(schema):
    name, nodes = schema
    root = (name, REQUIRED, 0, nodes)
    return " ".join(["ok"] + [node_text(node) + body_text(node[3]) for node in [root, *flat(nodes)]])


class Reader:
    """Reads an image from left to right; the first flaw met decides."""

    def __init__(self, data):
        self.data, self.at, self.nodes, self.leaves = data, 0, 0, 0

    def number(self):
        try:
            value, self.at = read_number(self.data, self.at)
            return value
        except Refused:
            raise Refused(2) from None

    def code(self, count):
        value = self.number()
        if value >= count:
            raise Refused(2)
        return value

    def bounded(self):
        value = self.number()
        if value >= 2**31:
            raise Refused(3)
        return value

    def name(self):
        length = self.number()
        if length > 255:
            raise Refused(3)
        name = self.data[self.at:self.at + length]
        if len(name) < length or not well_formed(name):
            raise Refused(2)
        self.at += length
        return name

    def fields(self, level):
        out = []
        for _ in range(self.number()):
            out.append(self.node(level))
        return out

    def node(self, level):
        if self.at >= len(self.data):
            raise Refused(2)
        if self.nodes == 256 or level > 16:
            raise Refused(3)
        self.nodes += 1
        name, repetition, annotation = self.name(), self.code(3), self.code(23)
        if self.code(2) == 1:
            return name, repetition, annotation, self.fields(level + 1)
        if self.leaves == 64:
            raise Refused(3)
        self.leaves += 1
        leaf = (self.code(8), self.bounded(), self.bounded(), self.bounded(), self.code(2))
        return name, repetition, annotation, leaf

    def schema(self):
        self.nodes = 1
        schema = self.name(), self.fields(1)
        if self.at < len(self.data):
            raise Refused(2)
        return schema


def read(data):
    """The schema of an image, or the number of its refusal."""
    try:
        return Reader(data).schema()
    except Refused as refusal:
        return int(str(refusal))


HEAP = (b"heap", [
    (b"op", REQUIRED, 1, (BYTE_ARRAY, 0, 0, 0, 0)),
    (b"block", REQUIRED, 0, (INT64, 0, 0, 0, 0)),
    (b"size", REQUIRED, 14, PLAIN),
    (b"padding", OPTIONAL, 0, PLAIN),
    (b"split", OPTIONAL, 4, [(b"list", REPEATED, 0, [(b"element", OPTIONAL, 0, (INT64, 0, 0, 0, 0))])]),
    (b"merged", OPTIONAL, 2, [(b"key_value", REPEATED, 3, [
        (b"key", REQUIRED, 0, (INT64, 0, 0, 0, 0)),
        (b"value", OPTIONAL, 6, (FIXED, 12, 2, 28, 0)),
    ])]),
])


def leaf(name=b"a", repetition=REQUIRED, annotation=0, body=PLAIN):
    return name, repetition, annotation, body


def nested(levels, innermost, repetition=REPEATED):
    """A node at this level below the root, inside groups of one field each."""
    node = innermost
    for level in range(levels - 1, 0, -1):
        node = (bytes([0x60 + level]), repetition, 0, [node])
    return node


def random_schema(rng):
    def node(depth):
        name = rng.choice([b"", b"a", b"b", b"a.b", b"list", "\u00e9\u20ac".encode(), b"\n", b"array"])
        annotation = rng.choice([0, 0, rng.randrange(23)])
        if depth < 5 and rng.random() < 0.4:
            return name, rng.randrange(3), annotation, [node(depth + 1) for _ in range(rng.randrange(4))]
        bounds = [rng.choice([0, 1, 127, 128, 2**31 - 1]) for _ in range(3)]
        return name, rng.randrange(3), annotation, (rng.randrange(8), *bounds, rng.randrange(2))

    return rng.choice([b"", b"root"]), [node(1) for _ in range(rng.randrange(5))]


def good_schemas():
    yield b"t", []
    yield b"", []
    yield b"t", [leaf()]
    yield HEAP
    for repetition in range(3):
        yield b"t", [leaf(repetition=repetition)]
        yield b"t", [(b"g", repetition, 0, [leaf(repetition=r) for r in range(3)])]
    for annotation in range(23):
        yield b"t", [leaf(annotation=annotation), (b"g", OPTIONAL, annotation, [])]
    for physical in range(8):
        yield b"t", [leaf(body=(physical, 16, 3, 9, 0)), leaf(body=(physical, 2, 0, 0, 1))]
    for place in range(1, 4):
        for value in (1, 2**31 - 1):
            yield b"t", [leaf(body=PLAIN[:place] + (value,) + PLAIN[place + 1:])]
    # the limits, just met
    yield b"t", [leaf()] * 64
    yield b"t", [(b"", REQUIRED, 0, [])] * 255
    yield b"t", [leaf()] * 64 + [(b"", REPEATED, 0, [])] * 191
    for innermost in (leaf(repetition=REPEATED), leaf(), (b"g", OPTIONAL, 0, [])):
        yield b"t", [nested(16, innermost)]
    yield b"t", [nested(16, leaf(), OPTIONAL), nested(16, leaf(), REQUIRED)]
    yield b"r" * 255, [leaf(name=b"n" * 255)]
    # names
    for name in (b"", b"a.b", b"\x00\n\x7f", b'"\\', "\u00e9\u20ac\U0001f600".encode(), b"\xf4\x8f\xbf\xbf"):
        yield name, [leaf(name=name), leaf(name=name)]
    rng = random.Random(1)
    for _ in range(30):
        yield random_schema(rng)


LEAF_IMAGE = image((b"t", [leaf()]))
# Where the numbers of that image stand: root's name, fields; name, repetition, annotation, kind, type,
# length, scale, precision, Float16.
PLACES = [0, 2, 3, 5, 6, 7, 8, 9, 10, 11, 12]


def with_number(place, form, rest=True):
    """The image with the bytes of one number put in the place of its own."""
    at = PLACES[place]
    return LEAF_IMAGE[:at] + form + (LEAF_IMAGE[at + 1:] if rest else b"")


def bad_images():
    """Images made by hand, each with its refusal."""
    yield b"", 2
    yield LEAF_IMAGE + b"\x00", 2
    yield image(HEAP) + b"\x01", 2
    for end in range(len(image(HEAP))):
        yield image(HEAP)[:end], 2
    # numbers in bad form, one in each place; and 2^64
    for place in range(len(PLACES)):
        yield with_number(place, b"\x80\x00"), 2
        yield with_number(place, number(LIMIT)), 2
        yield with_number(place, b"\x80", rest=False), 2
    # a code one past its range, and codes that would be in range if they were cut to a byte or to four
    for place, count in ((3, 3), (4, 23), (5, 2), (6, 8), (10, 2)):
        for code in (count, 127, 128, 256, 2**32, LIMIT - 1):
            yield with_number(place, number(code)), 2
    # lengths, scales and precisions past their bound
    for place in (7, 8, 9):
        for value in (2**31, 2**31 + 1, 2**32, 2**32 + 1, LIMIT - 1):
            yield with_number(place, number(value)), 3
        yield with_number(place, number(2**31), rest=False), 3
    # names: too long, as soon as the length is read; cut short; not UTF-8
    for place in (0, 2):
        for length in (256, 257, 2**32, LIMIT - 1):
            yield with_number(place, number(length)), 3
            yield with_number(place, number(length), rest=False), 3
        yield with_number(place, number(255)), 2
    yield image((b"r" * 256, [])), 3
    yield image((b"t", [leaf(name=b"n" * 256)])), 3
    for name in (b"\xed\xa0\x80", b"\x80", b"\xc3", b"\xe2\x82", b"\xc0\x80", b"\xf4\x90\x80\x80", b"a\xff"):
        yield image((name, [])), 2
        yield image((b"t", [leaf(name=name)])), 2
    # a character cut by the name's length, though its next byte follows
    yield b"\x01\xc3\xa9\x00", 2
    # leaves: the 65th is met at its 0, before its type
    full = image((b"t", [leaf()] * 65))
    yield full, 3
    yield full[:-5], 3
    yield full[:-6], 2
    # nodes: the 257th is met at its first byte
    full = image((b"t", [(b"", REQUIRED, 0, [])] * 256))
    yield full, 3
    yield full[:-4], 3
    yield full[:-5], 2
    full = image((b"t", [leaf()] * 64 + [(b"", REPEATED, 0, [])] * 192))
    yield full, 3
    # levels: a node at the 17th is met at its first byte
    for innermost in (leaf(), (b"g", OPTIONAL, 0, [])):
        full = image((b"t", [nested(17, innermost)]))
        yield full, 3
        size = len(node_image(innermost))
        yield full[:-size + 1], 3
        yield full[:-size], 2
    # more fields announced than there are
    for count in (2, 3, 300, LIMIT - 1):
        yield with_number(1, number(count)), 2
    yield b"\x01t\xff\xff\xff\xff\xff\xff\xff\xff\xff\x01" + b"\x00\x00\x00\x01\x00" * 255, 2
    yield b"\x01t\xff\xff\xff\xff\xff\xff\xff\xff\xff\x01" + b"\x00\x00\x00\x01\x00" * 256, 3
    # fewer fields announced than there are
    yield with_number(1, b"\x00"), 2
    # two flaws: the first from left to right decides
    head = LEAF_IMAGE[:9]
    yield head + number(0) + number(2**31) + b"\x80\x00", 3
    yield head + b"\x80\x00" + number(2**31), 2
    yield head + number(2**31) + number(0) + number(0) + number(2), 3
    yield LEAF_IMAGE[:8] + number(8) + number(2**31), 2
    yield with_number(3, number(3), rest=False) + number(23), 2
    yield LEAF_IMAGE[:-1] + number(2) + b"over", 2
    yield with_number(7, number(2**31)) + b"over", 3
    yield b"\x01t\x01" + number(256) + b"\xff", 3
    yield b"\x03\xed\xa0\x80" + number(LIMIT), 2
    leaves = image((b"t", [leaf()] * 65))[:-10]
    yield leaves + b"\x01a\x00\x17\x00\x01", 2  # the 65th leaf's annotation, before its 0
    yield leaves + b"\x01a\x03\x00\x00\x01", 2  # its repetition
    yield leaves + b"\x01a\x00\x00\x02\x01", 2  # its kind is neither
    yield leaves + b"\x01a\x00\x00\x00\x08", 3  # its 0, before its type
    yield leaves + b"\x80\x00", 2
    yield leaves + number(256), 3
    groups = image((b"t", [(b"", REQUIRED, 0, [])] * 256))[:-5]
    yield groups + b"\x80\x00", 3  # the 257th node, before its name
    yield groups + b"\xff", 3
    deep = image((b"t", [nested(17, leaf())]))[:-10]
    yield deep + b"\x80\x00", 3  # the 17th level, before the name
    yield deep + b"\x02\xff\xff", 3


def image_cases():
    for schema in good_schemas():
        data = image(schema)
        assert read(data) == schema, data.hex()
        yield data, image_answer(schema)
    for data, refusal in bad_images():
        assert read(data) == refusal, (data.hex(), refusal)
        yield data, f"refused {refusal}"
    # a byte of a good image changed, put in or left out
    rng = random.Random(2)
    for _ in range(150):
        data = bytearray(image(random_schema(rng)))
        at = rng.randrange(len(data))
        byte = rng.choice([0, 1, 2, 3, 23, 0x7F, 0x80, 0xFF, rng.randrange(256)])
        way = rng.randrange(3)
        data[at:at + (way > 0)] = bytes([byte][:way < 2])
        found = read(bytes(data))
        yield bytes(data), f"refused {found}" if isinstance(found, int) else image_answer(found)


def nodes_cases():
    rng = random.Random(3)
    for schema in [HEAP, (b"t", []), (b"", [(b"", REPEATED, 22, [])] * 3), *(random_schema(rng) for _ in range(20))]:
        yield image(schema), nodes_answer(schema)
    yield image(HEAP)[:-1], "refused 2"
    yield image((b"t", [leaf()] * 65)), "refused 3"


# Trace files.

PARTS = ["file image", "read image", "number of records", "batch size"]


def head_cases():
    first, second = image((b"t", [leaf()])), image((b"t", [leaf(name=b"n" * 120)]))
    for file in (b"", first, second):
        for read_as in (b"", first):
            for records, size, batches in ((0, 0, b""), (2, 16, b"\x00\x02"), (2**32 - 1, LIMIT - 1, b"\xff" * 5)):
                forms = [text(file), text(read_as), number(records), number(size)]
                yield b"".join(forms) + batches, f"ok {file.hex()}/{read_as.hex()}/{records}/{size}/{batches.hex()}"
    # each cut lies in a part
    forms = [text(first), text(second), number(300), number(2**14)]
    for part, form in enumerate(forms):
        before = b"".join(forms[:part])
        for end in range(len(form)):
            yield before + form[:end], f"truncated: {PARTS[part]}"
        for bad in (b"\x80\x00", number(LIMIT)):
            yield before + bad + b"\x00" * 9, f"badform: {PARTS[part]}"
    # an image longer than the file, in numbers that would wrap
    for length in (2**31, 2**32, LIMIT - 1):
        yield number(length) + b"\x00" * 9, f"truncated: {PARTS[0]}"
        yield b"\x00" + number(length) + b"\x00" * 9, f"truncated: {PARTS[1]}"
    for records in (2**32, 2**32 + 1, LIMIT - 1):
        yield b"\x00\x00" + number(records) + b"\x10", "many records"
        yield b"\x00\x00" + number(records), "many records"


# Plans: the shape of the rows of a read schema, from a file's.

MAP, MAP_KEY_VALUE, LIST = 2, 3, 4
COLLECTIONS = (LIST, MAP, MAP_KEY_VALUE)
# What a type is shown as under each annotation that converts; the others convert under all.
KINDS = {
    INT32: {0: 4, 6: 13, 7: 16, 8: 17, 12: 6, 13: 7, 14: 8, 16: 2, 17: 3, 18: 4},
    INT64: {0: 5, 6: 13, 9: 18, 10: 19, 11: 20, 15: 9, 19: 5},
    BYTE_ARRAY: {0: 15, 1: 14, 5: 14, 6: 13, 20: 14, 21: 15},
    FIXED: {0: 15, 6: 13},
}
ALWAYS = {0: 1, 3: 19, 4: 11, 5: 12}


def kind(annotation, body):
    if body[0] in ALWAYS:
        return ALWAYS[body[0]]
    if body[0] == FIXED and annotation == 0 and body[4]:
        return 10
    if annotation not in KINDS[body[0]]:
        raise Refused(11)
    return KINDS[body[0]][annotation]


def is_group(node):
    return isinstance(node[3], list)


def is_own_element(name, middle):
    return middle[0] in (b"array", name + b"_tuple")


def judge(node):
    """Refuses a node that breaks a rule of groups, lists or maps, or has one beneath that does."""
    name, repetition, annotation, fields = node
    if not is_group(node):
        return
    if not fields:
        raise Refused(4)
    first = fields[0]
    inner = first[3] if is_group(first) else []
    if annotation == LIST:
        alone = len(fields) == 1 and first[1] == REPEATED
        if alone and is_group(first) and not inner and not is_own_element(name, first):
            raise Refused(4)
        listed = is_group(first) and first[2] in COLLECTIONS
        if not alone or listed or len(inner) == 1 and inner[0][1] == REPEATED:
            raise Refused(5)
    elif annotation in (MAP, MAP_KEY_VALUE):
        pairs = len(fields) == 1 and first[1] == REPEATED and len(inner) in (1, 2)
        if not pairs or is_group(inner[0]) or inner[0][1] == REPEATED:
            raise Refused(6)
    if repetition == REPEATED and annotation in COLLECTIONS:
        raise Refused(7)
    if annotation in COLLECTIONS:
        if is_group(first) and not inner:
            raise Refused(4)
        fields = inner
    for field in fields:
        judge(field)


class Shaper:
    """The entries of a shape. Nodes are counted as they are entered, which is in preorder."""

    def __init__(self, file):
        self.file = [(path, body) for path, body in columns(file[1], [])]
        self.count, self.path, self.seen = 0, [], []

    def fields(self, number_of_node, nodes):
        shown = [entry for node in nodes for entry in self.node(node)]
        return [f"g{number_of_node}:{len(nodes)}"] + shown

    def node(self, node):
        self.count += 1
        number_of_node = self.count
        self.path.append(node)
        shown = self.required(number_of_node, node)
        self.path.pop()
        front = {REQUIRED: [], OPTIONAL: [f"o{number_of_node}"], REPEATED: [f"l{number_of_node}"]}
        return front[node[1]] + shown

    def required(self, number_of_node, node):
        name, _, annotation, body = node
        if not is_group(node):
            return self.leaf(number_of_node)
        if annotation not in COLLECTIONS:
            return self.fields(number_of_node, body)
        middle = body[0]
        self.count += 1
        number_of_middle = self.count
        self.path.append(middle)
        form = "l"
        if annotation == LIST and (
                not is_group(middle) or len(middle[3]) > 1 or is_own_element(name, middle)):
            shown = self.required(number_of_middle, middle)
        else:
            shown = [entry for field in middle[3] for entry in self.node(field)]
            form = "m" if annotation != LIST and len(middle[3]) == 2 else "l"
        self.path.pop()
        return [f"{form}{number_of_node}"] + shown

    def leaf(self, number_of_node):
        names = [node[0] for node in self.path]
        if names in self.seen:
            raise Refused(8)
        self.seen.append(names)
        found = [at for at, (path, _) in enumerate(self.file) if [node[0] for node in path] == names]
        if not found:
            raise Refused(9)
        path, body = self.file[found[-1]]
        if [node[1] for node in path] != [node[1] for node in self.path]:
            raise Refused(10)
        return [f"v{number_of_node}:{found[-1]},{kind(path[-1][2], body)}"]


def build(size, file_image, read_image):
    """The text of the plan; or the refusal is raised."""
    if not 1 <= size <= 16:
        raise Refused(1)
    schemas = []
    for data in (file_image, read_image or file_image):
        schemas.append(read(data))
        if isinstance(schemas[-1], int):
            raise Refused(schemas[-1])
    file, (name, nodes) = schemas
    judge((name, REQUIRED, 0, nodes))
    return " ".join([f" {size}"] + Shaper(file).fields(0, nodes))


def builds(*calls):
    """The case of builds, one after the other."""
    data, answers, standing = b"", [], ""
    for size, file_image, read_image in calls:
        data += text(file_image) + text(read_image) + number(0) + number(size)
        try:
            standing = build(size, file_image, read_image)
            answers.append("ok" + standing)
        except Refused as refusal:
            answers.append(f"refused {refusal}{standing}")
    return data, " / ".join(answers)


def group(name=b"g", repetition=REQUIRED, annotation=0, fields=()):
    return name, repetition, annotation, list(fields)


def plan_schemas():
    """A file, how it is read (None: as itself), and the refusal expected (0: none)."""

    def same(*nodes):
        return (b"t", list(nodes)), None

    def two(file, read_as):
        return (b"t", file), (b"t", read_as)

    a, b, again = leaf(), leaf(name=b"b"), leaf(repetition=REPEATED)
    pair = [leaf(name=b"k"), leaf(name=b"v", repetition=OPTIONAL)]
    unconverted = leaf(name=b"u", annotation=1)
    empty, list_of_two = group(), group(b"l", 0, LIST, [a, b])
    bad_list, bad_map = group(b"l", 0, LIST, [a]), group(b"m", 0, MAP, [a])
    repeated_list = group(b"r", REPEATED, LIST, [again])

    def in_list(*fields, name=b"list", annotation=0, repetition=REPEATED, outer=b"x"):
        return group(outer, REQUIRED, LIST, [group(name, repetition, annotation, fields)])

    def in_map(*fields, annotation=MAP, repetition=REPEATED):
        return group(b"m", OPTIONAL, annotation, [group(b"key_value", repetition, 0, fields)])

    # the refusals
    yield same(), 4
    yield same(empty), 4
    yield same(a, group(fields=[b, empty])), 4
    yield same(bad_list), 5
    yield same(list_of_two), 5
    yield same(in_list(again)), 5
    yield same(in_list(a, repetition=OPTIONAL)), 5
    for annotation in COLLECTIONS:
        yield same(in_list(a, annotation=annotation)), 5
    yield same(in_list()), 4
    yield same(in_list(name=b"array")), 4
    for annotation in (MAP, MAP_KEY_VALUE):
        yield same(group(b"m", 0, annotation, [a])), 6
        yield same(in_map(annotation=annotation)), 6
    yield same(in_map(*pair, a)), 6
    yield same(in_map(again)), 6
    yield same(in_map(group(fields=[a]), b)), 6
    yield same(in_map(*pair, repetition=REQUIRED)), 6
    yield same(group(b"m", 0, MAP, [again])), 6
    yield same(repeated_list), 7
    yield same(group(b"m", REPEATED, MAP, [group(b"kv", REPEATED, 0, pair)])), 7
    yield same(a, a), 8
    yield two([a], [b]), 9
    yield two([a], [leaf(repetition=OPTIONAL)]), 10
    yield two([group(fields=[a])], [group(repetition=OPTIONAL, fields=[a])]), 10
    yield same(unconverted), 11
    # lists, of two levels and of three
    yield same(group(b"x", OPTIONAL, LIST, [again])), 0
    yield same(in_list(a)), 0
    yield same(in_list(leaf(repetition=OPTIONAL))), 0
    yield same(in_list(a, b)), 0
    yield same(in_list(a, name=b"array")), 0
    yield same(in_list(a, name=b"x_tuple")), 0
    yield same(in_list(a, name=b"x_tuple", outer=b"y")), 0
    yield same(in_list(a, name=b"_tuple", outer=b"")), 0
    yield same(in_list(group(b"y", 0, LIST, [again]))), 0
    yield same(again, group(repetition=REPEATED, fields=[a, b])), 0
    # maps
    yield same(in_map(*pair)), 0
    yield same(in_map(*pair, annotation=MAP_KEY_VALUE)), 0
    yield same(in_map(leaf(name=b"k", repetition=OPTIONAL))), 0
    yield same(in_map(a, leaf(name=b"v", repetition=REPEATED))), 0
    yield same(in_map(a, group(b"v", OPTIONAL, LIST, [again]))), 0
    # names and paths
    yield same(leaf(name=b"a.b"), group(b"a", fields=[b])), 0
    yield two([a, leaf(body=(INT64, 0, 0, 0, 0)), b], [b, a]), 0
    yield two([a, leaf(repetition=OPTIONAL)], [a]), 10
    yield two([unconverted, leaf(name=b"u")], [unconverted]), 0
    yield two([leaf(annotation=7)], [leaf(annotation=1)]), 0
    yield two([empty, list_of_two, a], [a]), 0
    yield HEAP, None, 0
    yield HEAP, (b"", [HEAP[1][5], HEAP[1][0]]), 0
    # two refusals at once
    yield same(group(b"l", 0, LIST)), 4
    yield same(group(b"l", REPEATED, LIST, [a])), 5
    yield same(group(b"m", REPEATED, MAP, [a])), 6
    yield same(group(b"r", REPEATED, LIST, [group(b"list", REPEATED, 0, [empty])])), 7
    yield same(bad_map, bad_list), 6
    yield same(group(fields=[bad_map]), empty), 6
    yield same(repeated_list, empty), 7
    yield same(unconverted, a, a, bad_list), 5
    yield two([a], [b, repeated_list]), 7
    yield two([a], [a, a, b]), 8
    yield two([a], [a, b, a]), 9
    yield two([a, unconverted], [leaf(repetition=OPTIONAL), unconverted]), 10
    yield two([a, unconverted], [unconverted, leaf(repetition=OPTIONAL)]), 11
    yield two([unconverted], [leaf(name=b"u", repetition=OPTIONAL)]), 10
    yield two([b], [a, a]), 9


def plan_cases():
    for *schemas, refusal in (([*row[0], row[1]] if len(row) == 2 else row) for row in plan_schemas()):
        file, read_as = schemas
        data, found = builds((16, image(file), image(read_as) if read_as else b""))
        assert found.split(" ")[:2] == (["refused", str(refusal)] if refusal else ["ok", "16"]), (schemas, found)
        yield data, found
    # every type under every annotation
    for physical in range(8):
        for annotation in range(23):
            node = leaf(annotation=annotation, body=(physical, 2, 0, 0, annotation % 2))
            yield builds((1, image((b"t", [node])), b""))
    yield builds((1, image((b"t", [leaf(body=(FIXED, 2, 0, 0, 1))])), b""))
    # the batch size before the images, the file's image before the read one, an image before the rules
    good, empty = image((b"t", [leaf()])), image((b"t", []))
    bad, long = b"", image((b"t", [leaf()] * 65))
    for size in (0, 1, 16, 17, LIMIT - 1):
        yield builds((size, good, good))
        yield builds((size, bad, long))
    for file, read_as in ((bad, long), (long, b"\x80"), (good, long), (good, b"\x80"), (long, empty), (empty, long)):
        yield builds((3, file, read_as))
    # one plan built again; a refusal leaves it as it was
    other = image(HEAP)
    yield builds((2, good, b""), (3, other, b""), (16, other, image((b"", HEAP[1][:1]))))
    yield builds((0, good, b""), (2, good, b""))
    for size, file, read_as in ((0, good, b""), (1, bad, good), (1, good, long), (1, good, empty), (1, good, other)):
        yield builds((9, other, b""), (size, file, read_as), (size, file, read_as), (4, good, b""))


GROUPS = {"utf8": utf8_cases, "number": number_cases, "image": image_cases, "nodes": nodes_cases,
          "head": head_cases, "plan": plan_cases}


def main():
    here = pathlib.Path(__file__).parent
    lines, report, total = ["# Written by make_cases.py, which says what a line is."], [], 0
    for name, cases in GROUPS.items():
        unique = dict(cases())
        lines.append("")
        lines += [f"{name} {data.hex() or '-'} {answer}" for data, answer in unique.items()]
        report.append(f"{name}: {len(unique)} cases, all as expected")
        total += len(unique)
    report.append(f"vectors: {total} cases, all as expected")
    (here / "stdin").write_text("\n".join(lines) + "\n")
    (here / "stdout").write_text("\n".join(report) + "\n")


if __name__ == "__main__":
    main()
