#!/usr/bin/env python3
"""Writes heap.trace beside this script: six calls of a set-top box's heap, stored as columns.

Each record is a call: what was done, to which block, of what size; how many bytes of padding it was
given (null: none asked for); the blocks that were split off (null: nothing was split; a null element:
a block handed to another pool); the blocks that were merged into it, with their sizes (null: not a call
that merges; a null value: a block of unknown size).
"""
import pathlib

# op, block, size, padding, split, merged
RECORDS = [
    # the first block, cut from the arena: the rest is split off
    ("malloc", 0x1000, 96, 0, [0x1060], None),
    # fits exactly: no padding, no split
    ("malloc", 0x1060, 40, None, None, None),
    # a free that could merge, and found nothing to merge with
    ("free", 0x1000, 96, None, None, {}),
    # grows into the freed block, and splits what is left in two
    ("realloc", 0x1000, 200, 8, [0x10D0, 0x1100], {0x1060: 40}),
    # merges both rests, one of unknown size; the split was tried and gave none
    ("free", 0x1000, 200, None, [], {0x10D0: 48, 0x1100: None}),
    # the largest size that 32 bits hold; of three blocks split off, the second went to another pool
    ("malloc", 0x200000000, 0xFFFFFFFF, 4, [0x300000000, None, 0x300001000], None),
]

REQUIRED, OPTIONAL, REPEATED = 0, 1, 2
NONE, UTF8, MAP, LIST, UINT_32 = 0, 1, 2, 4, 14
INT32, INT64, BYTE_ARRAY = 1, 2, 6


def number(n):
    """Groups of seven bits, lowest first, the top bit set on every byte but the last."""
    out = bytearray()
    while n >= 128:
        out.append(n % 128 + 128)
        n //= 128
    out.append(n)
    return bytes(out)


def text(s):
    data = s.encode()
    return number(len(data)) + data


def leaf(name, repetition, annotation, physical):
    """Name, repetition, annotation, 0, physical type, length, scale, precision, Float16."""
    return text(name) + b"".join(map(number, [repetition, annotation, 0, physical, 0, 0, 0, 0]))


def group(name, repetition, annotation, *fields):
    return text(name) + b"".join(map(number, [repetition, annotation, 1, len(fields)])) + b"".join(fields)


FIELDS = [
    leaf("op", REQUIRED, UTF8, BYTE_ARRAY),
    leaf("block", REQUIRED, NONE, INT64),
    leaf("size", REQUIRED, UINT_32, INT32),
    leaf("padding", OPTIONAL, NONE, INT32),
    group("split", OPTIONAL, LIST,
          group("list", REPEATED, NONE, leaf("element", OPTIONAL, NONE, INT64))),
    group("merged", OPTIONAL, MAP,
          group("key_value", REPEATED, NONE,
                leaf("key", REQUIRED, NONE, INT64), leaf("value", OPTIONAL, NONE, INT64))),
]
FILE_IMAGE = text("heap") + number(len(FIELDS)) + b"".join(FIELDS)

# Of each column: max definition, max repetition.
MAXIMA = [(0, 0), (0, 0), (0, 0), (1, 0), (3, 1), (2, 1), (3, 1)]


def entries(items, levels):
    """The triplets of a list or map: null is at 0, an empty one at 1, an entry at its own level."""
    if items is None:
        return [(0, 0, None)]
    if not items:
        return [(0, 1, None)]
    return [(0 if i == 0 else 1, *levels(item)) for i, item in enumerate(items)]


def nullable(value, level):
    """A null is one below the level of a value."""
    return (level - 1, None) if value is None else (level, value)


def triplets(record):
    """For each column the record's triplets: repetition, definition, value (None below the maximum)."""
    op, block, size, padding, split, merged = record
    pairs = None if merged is None else list(merged.items())
    return [
        [(0, 0, op)],
        [(0, 0, block)],
        [(0, 0, size)],
        [(0, *nullable(padding, 1))],
        entries(split, lambda block: nullable(block, 3)),
        entries(pairs, lambda pair: (2, pair[0])),
        entries(pairs, lambda pair: nullable(pair[1], 3)),
    ]


def batch(column, part):
    """Column, level count, definition levels, repetition levels, value count, values."""
    max_definition, max_repetition = MAXIMA[column]
    out = number(column) + number(len(part))
    if max_definition > 0:
        out += bytes(definition for _, definition, _ in part)
    if max_repetition > 0:
        out += bytes(repetition for repetition, _, _ in part)
    values = [value for _, definition, value in part if definition == max_definition]
    out += number(len(values))
    for value in values:
        out += text(value) if isinstance(value, str) else number(value)
    return out


def main():
    columns = [[] for _ in MAXIMA]
    for record in RECORDS:
        for column, part in enumerate(triplets(record)):
            columns[column] += part
    # Two rounds of batches: a column's first five triplets, and the others. A batch may end inside a
    # record: the merged blocks of the fifth are cut in two.
    batches = [batch(c, column[:5]) for c, column in enumerate(columns)]
    batches += [batch(c, column[5:]) for c, column in enumerate(columns)]
    trace = number(len(FILE_IMAGE)) + FILE_IMAGE  # the schema of the file
    trace += number(0)                            # the schema to read by: the file's
    trace += number(len(RECORDS)) + number(16)    # records announced, batch size
    trace += b"".join(batches)
    pathlib.Path(__file__).with_name("heap.trace").write_bytes(trace)


if __name__ == "__main__":
    main()
