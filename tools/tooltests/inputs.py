"""Random inputs of hoofrun as bytes, made without the text form; some damaged."""

import struct

LF2 = 0x32664C  # the name "Lf2"
WORDS = (
    0, 1, 2, 3, 5, 7, 8, 9, -1, 255, 256, 1 << 31, (1 << 63) - 1, -(1 << 63),
    LF2, -LF2, LF2 | 0x7F << 24, LF2 | 0x7E << 56, int.from_bytes(b"Lf2 #~Az", "little"),
)


def pick_columns(random, count, most):
    """Some columns below count, each once, in any order."""
    return random.sample(range(count), random.randint(1, min(count, most)))


def table_record(random, columns):
    """A table record whose masks stay below its columns."""
    below = (1 << columns) - 1
    unique = [random.randint(1, below) for _ in range(random.randint(0, 4))]
    null_default = random.randint(0, below)
    defaults = [0] * 8
    for c in range(columns):
        if not null_default >> c & 1:
            defaults[c] = random.choice(WORDS)
    masks = [random.randint(0, below)] + unique + [0] * (4 - len(unique)) + [null_default]
    masks.append(random.randint(0, below))  # of folded columns
    rows = random.choice((1, 4, 30, 1024, 0, 65535))
    return struct.pack("<HB7B6x8q", rows, columns, *masks, *defaults)


def may_be_windowed(head):
    """Whether a key may be windowed, by the first six bytes of its record: its actions and its columns."""
    *_, on_delete, on_update, count = head
    return max(on_delete, on_update) < 2 <= count


def key_record(random, widths):
    """A foreign key record of a table to a table, or to any numbers, as one that is not drawn has."""
    child, parent = random.randrange(len(widths)), random.randrange(len(widths))
    child_columns = pick_columns(random, widths[child], 4)
    parent_columns = pick_columns(random, widths[parent], 4)
    if random.random() < 0.2:
        parent_columns = pick_columns(random, 256, 4)
        parent = random.choice((parent, random.randrange(256)))
    count = min(len(child_columns), len(parent_columns))
    head = [child, parent, random.randint(0, 1), random.randint(0, 4), random.randint(0, 4), count]
    marks = [random.randint(0, 1), may_be_windowed(head) and random.randint(0, 1)]
    for columns in (child_columns, parent_columns):
        head += columns[:count] + [255] * (4 - count)
    return bytes(head + marks)


def schema(random):
    """Schema bytes and the number of columns of each table."""
    widths = [random.randint(1, 8) for _ in range(random.randint(1, 16))]
    keys = random.randint(0, 32)
    keys_at = 16 + 80 * len(widths)
    sizes = (len(widths), keys, 16, keys_at, random.randint(1, 4096), keys_at + 16 * keys)
    tables = b"".join(table_record(random, width) for width in widths)
    records = b"".join(key_record(random, widths) for _ in range(keys))
    return struct.pack("<4s6H", b"FKB1", *sizes) + tables + records, widths


def many_rows(random, kind, widths):
    """Words 1 to 6 of a well-formed call for many rows: kind 10 seeks, kind 11 also sets."""
    table = random.randrange(len(widths))
    width, mask = widths[table], random.randrange(2 if kind == 10 else 4)
    sought = 0 if mask & 1 else random.choice(WORDS)
    if kind == 10:
        return table, random.randrange(width), mask, sought, 0, 0
    given = 0 if mask & 2 else random.choice(WORDS)
    return table, random.randrange(width), mask, sought, random.randrange(width), given


def call(random, widths):
    """A call that is well formed, but for its row and now and then a word."""
    kind = random.randint(1, 11)
    words = [kind] + [0] * 11
    if kind <= 3:
        words[1:3] = random.randrange(len(widths)), random.choice((0, 1, 29, 1023, -1, 1024))
    if kind <= 2:
        words[3] = random.randrange(1 << widths[words[1]])
        for c in range(widths[words[1]]):
            words[4 + c] = 0 if words[3] >> c & 1 else random.choice(WORDS)
    if kind in (6, 7):
        words[1] = random.choice(WORDS)
    if kind in (10, 11):
        words[1:7] = many_rows(random, kind, widths)
    if random.random() < 0.1:
        words[random.randrange(12)] = random.choice(WORDS)
    return struct.pack("<12q", *words)


def whole_input(random):
    """A schema and calls; now and then the last call is short."""
    head, widths = schema(random)
    calls = b"".join(call(random, widths) for _ in range(random.randint(0, 12)))
    short = bytes(random.randrange(256) for _ in range(random.choice((0, 0, 1, 8, 95))))
    return head + calls + short


def damaged(random, data):
    """The input with bytes written over, cut off or added."""
    data = bytearray(data)
    for _ in range(random.randint(1, 3)):
        reach = random.choice((16, 100, len(data)))
        data[random.randrange(min(reach, len(data)))] = random.choice((0, 1, 4, 9, 16, 128, 255))
    if random.random() < 0.3:
        data = data[: random.randrange(len(data) + 1)]
    return bytes(data) + bytes(random.choice((0, 0, 0, 5, 96)))
