#!/usr/bin/env python3
"""Cases by seed, one a line: valid files, damaged files and library states.

    generate.py COUNT [SEED]

docs/ORACLE.md has the text forms. Each case has a generator of its own, seeded by the seed and its number.
"""

import itertools
import random
import sys
import types

import reading

EDGES = (0, 1, 2, 63, 64, 65, 127, 128, 129, 511, 512)
WIDTHS = (*EDGES, 192, 193, 256, 257, 320, 321, 384, 385, 448, 449)  # both sides of each width of a row
LIMIT = 65536


def pack(number):
    return number.to_bytes(2, "little")


def size_of(records):
    return sum(4 + len(body) for _, body in records)


def subset(rng, n, style):
    """A set of atoms below n."""
    if n == 0 or style == "empty":
        return 0
    if style == "dense":
        return rng.getrandbits(n)
    if style == "pair":
        first = rng.randrange(n)
        return 1 << first | 1 << min(first + rng.choice((1, 1, 2)), n - 1)
    return sum(1 << atom for atom in rng.sample(range(n), min(n, rng.choice((1, 2, 2, 3, 3, 4)))))


def atoms_of(mask):
    return [atom for atom in range(mask.bit_length()) if mask >> atom & 1]


# Records


def row_of(rng, mask, truth):
    """A row that the truth meets, if there is one; now and then an atom is named twice."""
    atoms = atoms_of(mask)
    rng.shuffle(atoms)
    if atoms and rng.random() < 0.1:
        atoms += rng.choices(atoms, k=2)
    constant = rng.getrandbits(1) if truth is None else (mask & truth).bit_count() % 2
    return 2, bytes([constant]) + b"".join(map(pack, atoms))


def table_record(rng, n, truth):
    """A table whose allowed patterns are an affine set, all or none; and its number of equations."""
    k = rng.randint(0, min(8, n))
    atoms = sorted(rng.sample(range(n), k))
    if truth is None:
        anchor = rng.randrange(1 << k)
    else:
        anchor = sum((truth >> atom & 1) << bit for bit, atom in enumerate(atoms))
    allowed = affine_set(rng, k, anchor)
    if rng.random() < 0.1:
        allowed = set(range(1 << k))
    elif truth is None and rng.random() < 0.05:
        allowed = set()
    equations = k + 1 - len(allowed).bit_length() if allowed else 1
    return (3, bytes([k]) + b"".join(map(pack, atoms)) + table_words(rng, k, allowed)), equations


def affine_set(rng, k, anchor):
    patterns = {anchor}
    for _ in range(rng.randint(0, k)):
        step = rng.randrange(1 << k)
        patterns |= {pattern ^ step for pattern in patterns}
    return patterns


def table_words(rng, k, allowed):
    """The forbidden patterns, with anything in the bits that are ignored."""
    count = 2 * -(-(1 << k) // 128)
    forbidden = sum(1 << pattern for pattern in range(1 << k) if pattern not in allowed)
    if rng.random() < 0.3:
        forbidden |= rng.getrandbits(64 * count) >> (1 << k) << (1 << k)
    return forbidden.to_bytes(8 * count, "little")


def ladder(rng, n, truth):
    """Rows of rising lowest atom, in any order, and some sums of them: a rank near a border of words."""
    rank = min(n, rng.choice((n, n - 1, 63, 64, 65, 127, 128, 129, 255, 256, 257)))
    rows = [1 << low | subset(rng, n, "sparse") >> low << low for low in rng.sample(range(n), rank)]
    rows += [rng.choice(rows) ^ rng.choice(rows) for _ in range(rng.randint(0, min(40, 512 - rank)))]
    rng.shuffle(rows)
    return [row_of(rng, row, truth) for row in rows]


def system_records(rng, n, rows, tables, truth, limit):
    """Records of kinds 2 and 3 that make at most `rows` rows and `limit` bytes."""
    records, made, size = [], 0, 0
    styles = rng.choice((["sparse"], ["pair"], ["dense"], ["sparse", "pair", "dense", "empty"]))
    for _ in range(2 * rows):
        if rng.random() < tables:
            record, count = table_record(rng, n, truth)
        else:
            record, count = row_of(rng, subset(rng, n, rng.choice(styles)), truth), 1
        if made + count <= rows and size + 4 + len(record[1]) <= limit:
            made, size = made + count, size + 4 + len(record[1])
            records.append(record)
    return records


def call_records(rng, n, count, truth):
    """Decisions that mostly follow the truth, inspections and probes."""
    follow = rng.choice((0.5, 0.9, 1.0))
    weights = rng.choice(((2, 1, 1), (1, 1, 1), (8, 1, 0), (1, 1, 4)))
    records = []
    for kind in rng.choices((4, 5, 6), weights, k=count):
        if kind != 4:
            records.append((kind, b""))
        elif n:
            atom = rng.randrange(n)
            value = rng.getrandbits(1) if truth is None or rng.random() > follow else truth >> atom & 1
            records.append((4, pack(atom) + bytes([value])))
    return records


# Files


SHAPES = {  # weight, atoms, most rows, most calls
    "small": (50, range(9), 8, 25),
    "edge": (25, EDGES, 40, 25),
    "wide": (5, EDGES, 512, 10),
    "ladder": (10, (64, 65, 127, 128, 129, 257, 511, 512), 0, 12),
    "long": (6, range(4, 70), 30, 400),
    "full": (2, EDGES, 512, 4),
}


def valid_records(rng):
    shape = rng.choices(list(SHAPES), [shape[0] for shape in SHAPES.values()])[0]
    _, atoms, rows, calls = SHAPES[shape]
    n = rng.choice(atoms)
    rows = 512 if shape == "full" or rng.random() < 0.3 and shape == "wide" else rng.randint(0, rows)
    truth = None if rng.random() < 0.2 else rng.getrandbits(n + 1) & (1 << n) - 1
    tables = rng.choice((0, 0.2, 0.7))
    records = [(1, pack(n))]
    if shape == "ladder":
        records += ladder(rng, n, truth)
    records += system_records(rng, n, rows, tables, truth, LIMIT - 4096)
    records += call_records(rng, n, rng.randint(0, calls), truth)
    if shape == "full":
        fill(rng, records, n)
    return records


def fill(rng, records, n):
    """Grow a file to its limit: tables that allow all, which make no row, then inspections."""
    k = min(8, n)
    atoms = b"".join(map(pack, sorted(rng.sample(range(n), k))))
    table = 3, bytes([k]) + atoms + table_words(rng, k, set(range(1 << k)))
    room = LIMIT - size_of(records)
    at = len(records) - len([kind for kind, _ in records if kind > 3])
    records[at:at] = [table] * (room // size_of([table]))
    records += [(5, b"")] * ((LIMIT - size_of(records)) // 4)


def assemble(records):
    """Records are (kind, body), or bytes that are taken as they are."""
    return b"".join(
        record if isinstance(record, bytes) else pack(2 + len(record[1])) + pack(record[0]) + record[1]
        for record in records
    )


# Damage: each reaches the number in its name, unless an earlier fault hides it


def fault_1(rng, records, at, n):
    how = rng.randrange(4)
    if how == 0:
        records.append(rng.choice((b"\x00", b"\x02", b"\x09\x00\x05")))
    elif how == 1:
        records[at] = pack(rng.randint(0, 1)) + assemble([records[at]])[2:]
    elif how == 2:
        past = rng.choice((len(assemble(records[at:])) - 1, 65535))
        records[at] = pack(min(past, 65535)) + assemble([records[at]])[2:]
    else:
        records[:] = [assemble(records)[: -rng.randint(1, 3)]]


def fault_2(rng, records, at, n):
    how = rng.randrange(5)
    if how == 0:
        records[at] = rng.choice((0, 7, 8, 258, 513, 65535)), b"" if rng.getrandbits(1) else b"\x00\x00"
    elif how == 1:
        records.insert(at + 1, (1, rng.choice((pack(n), pack(600), b""))))
    elif how == 2:
        records += [(rng.choice((5, 6)), b""), (2, rng.choice((b"\x00", b"\x09", b"")))]
    elif how == 3:
        records[0] = rng.choice((2, 3, 4, 5, 6)), rng.choice((b"", b"\x00"))
    else:
        records.clear()


def fault_3(rng, records, at, n):
    kind, body = 5, b"\x00"
    if not isinstance(records[at], bytes):
        kind, body = records[at]
        body = rng.choice((body + b"\x00", body + b"\x00\x00\x00", body[:-1], b""))
    spare = rng.choice(((kind, body), (2, b"\x09\x00"), (3, b""), (3, b"\x02\x00\x00"), (4, b"\xff\xff"), (6, b"\x01")))
    records[at] = spare if at and rng.getrandbits(1) else (kind, body)


def fault_4(rng, records, at, n):
    high = pack(rng.choice((n, n + 1, 65535)))
    above = bytes([rng.choice((2, 255))])
    bodies = {
        1: [pack(rng.choice((513, 65535)))],
        2: [above, b"\x00" + high, above + high],
        3: [bytes([rng.choice((9, 255))]) + bytes(rng.choice((0, 40))), b"\x01" + high + bytes(16),
            b"\x02" + high + pack(0) + bytes(16), b"\x03" + pack(1) + pack(0) + high + bytes(16)],
        4: [high + b"\x00", high + above, pack(0) + above],
    }
    kind = records[at][0] if not isinstance(records[at], bytes) else 0
    if kind in bodies and rng.getrandbits(1):
        records[at] = kind, rng.choice(bodies[kind])
    else:
        kind = rng.choice((2, 3, 3, 4))
        where = rng.randint(1, first_call(records)) if kind < 4 else len(records)
        records.insert(where, (kind, rng.choice(bodies[kind])))


def first_call(records):
    at = len(records)
    while at > 1 and not isinstance(records[at - 1], bytes) and records[at - 1][0] > 3:
        at -= 1
    return at


def fault_5(rng, records, at, n):
    last = max(n - 1, 0)
    atoms = rng.choice(([last, 0], [0, 0], [0, last, last], [0, last, 0], [last, 0, n]))
    body = bytes([len(atoms)]) + b"".join(map(pack, atoms)) + rng.randbytes(16)
    records.insert(rng.randint(1, first_call(records)), (3, body))


def fault_6(rng, records, at, n):
    """Three of four patterns, five of eight, or a random table."""
    k, word = rng.choice(((2, 1), (2, 8), (3, 248), (3, 7), (4, rng.getrandbits(16)), (8, 1)))
    k = min(k, n)
    atoms = sorted(rng.sample(range(n), k))
    body = bytes([k]) + b"".join(map(pack, atoms)) + word.to_bytes(16 * -(-(1 << k) // 128), "little")
    records.insert(rng.randint(1, first_call(records)), (3, body))


def fault_7(rng, records, at, n):
    where = first_call(records)
    one_row = rng.choice(((2, b"\x00"), (3, b"\x00\x01" + bytes(15))))
    records[where:where] = [one_row] * rng.choice((512, 513, 600))
    if n >= 3:
        table = 3, b"\x03" + pack(0) + pack(1) + pack(2) + rng.choice((248, 254)).to_bytes(16, "little")
        records.insert(where + rng.choice((508, 510, 511, 512)), table)


def fault_8(rng, records, at, n):
    records.append(bytes(LIMIT + rng.choice((0, 1, 1, 5000)) - min(LIMIT, len(assemble(records)))))


def fault_byte(rng, records, at, n):
    data = bytearray(assemble(records))
    if data:
        data[rng.randrange(len(data))] = rng.choice((0, 1, 2, 255, rng.getrandbits(8)))
    records[:] = [bytes(data)]


FAULTS = (fault_1, fault_2, fault_3, fault_4, fault_5, fault_6, fault_7, fault_8, fault_byte)


def damaged_file(rng):
    records = valid_records(rng)
    while size_of(records) > 3000:
        records = valid_records(rng)
    n = int.from_bytes(records[0][1], "little")
    for fault in rng.choices(FAULTS, (4, 4, 4, 4, 3, 3, 2, 0.3, 4), k=rng.choice((1, 2, 2))):
        if records:
            fault(rng, records, rng.randrange(len(records)), n)
    return assemble(records)


# Library states


def show(name, values, form="{}"):
    return " ".join([name, *map(form.format, values)])


def split(mask, count=None):
    """A set as words: so many, or as many as it needs."""
    if count is None:
        count = max(1, -(-mask.bit_length() // 64))
    return [mask >> 64 * at & 2**64 - 1 for at in range(count)]


def decided(rng, n, truth):
    """Held and cut: some atoms, mostly as the truth has them."""
    half, most = rng.getrandbits(n + 1), rng.getrandbits(n + 1) | rng.getrandbits(n + 1) | rng.getrandbits(n + 1)
    some = rng.choice((0, half, most, most, -1)) & (1 << n) - 1
    if rng.random() < 0.4:
        truth ^= subset(rng, n, "sparse")
    return some & truth, some & ~truth


SPARE = {"rows": 2**64 - 1, "constants": 255, "basis": 2**64 - 1, "index": 2**64 - 1}  # past what a call may read


class State(types.SimpleNamespace):
    """What a call is lent, fit or not; `line` writes it down. `short` has the cells that a buffer lacks, below 0 those too many, and
    `told` the counts that are named in the place of those that the buffers have."""

    told = {}

    def count(self, name):
        return self.told.get(name, getattr(self, name))

    def field(self, name):
        width = -(-self.n // 64)
        values = {
            "system": lambda: [*map(self.count, ("n", "m", "rank")), "refuted" if self.refuted else "sound"],
            "size": lambda: [self.n, self.m],
            "atoms": lambda: [self.n],
            "rank": lambda: [self.rank],
            "atom": lambda: [self.atom],
            "rows": lambda: [word for row in self.rows for word in split(row, width)],
            "constants": lambda: [int(constant) for constant in self.constants],
            "basis": lambda: self.basis,
            "index": lambda: [word for column in self.columns for word in split(column, 2 * -(-self.rank // 128))],
            "region": lambda: [self.count("region_n")],
            "held": lambda: split(self.held),
            "cut": lambda: split(self.cut),
            "known": lambda: [self.known_n] if self.known else ["fresh"],
            "oldheld": lambda: split(self.old_held) if self.known else [],
            "oldcut": lambda: split(self.old_cut) if self.known else [],
            "forced": lambda: self.forced,
            "room": lambda: self.room,
        }[name]()
        less = self.short.get(name, 0)
        values = values[: len(values) - less] if less > 0 else values + [SPARE.get(name)] * -less
        hexadecimal = name in ("rows", "index", "held", "cut", "oldheld", "oldcut")
        return show(name, values, "{:x}" if hexadecimal else "{}")

    def line(self, call):
        names = CALLS[call].split()
        if not self.known:
            names = [name for name in names if not name.startswith("old")]
        return " ".join([call, *map(self.field, names)])


def random_size(rng):
    n = rng.choice(EDGES) if rng.random() < 0.4 else rng.randint(0, 8)
    return n, rng.choice((rng.randint(0, 8), rng.randint(0, 40), rng.choice((127, 128, 129, 512)) if n < 70 else 64))


def random_state(rng, n, m):
    truth = rng.getrandbits(n + 1) & (1 << n) - 1
    style, noise = rng.choice(("sparse", "pair", "dense")), rng.choice((0, 0.02, 0.5))
    rows = [subset(rng, n, style) for _ in range(m)]
    places = min(m, n)
    basis = [rng.randrange(m) for _ in range(places)] if rng.random() < 0.3 else rng.sample(range(m), places)
    rank = rng.choice((places, rng.randint(0, places)))
    held, cut = decided(rng, n, truth)
    earlier = rng.choice((0, 0, rng.getrandbits(n + 1), -1))
    return State(
        n=n, m=m, truth=truth, rank=rank, refuted=rng.random() < 0.1, rows=rows,
        constants=[(row & truth).bit_count() % 2 ^ (rng.random() < noise) for row in rows],
        basis=basis, columns=marks(rng, n, [rows[b] for b in basis[:rank]]),
        region_n=n, held=held, cut=cut,
        known=rng.random() < 0.6, known_n=n, old_held=held & earlier, old_cut=cut & earlier,
        forced=[rank + rng.choice((0, 3))] * 2, room=room_for(n, m),
        atom=rng.randrange(n) if n else 0, short={},
    )


def room_for(n, m):
    """The lengths of basis, unit atoms, unit values and index that preparation wants."""
    places = min(m, n)
    return [places, places, places, n * 2 * -(-places // 128)]


def marks(rng, n, rows):
    """The columns that preparation would make, or any."""
    how = rng.choice(("true", "true", "random", "none"))
    if how == "true" and n and rows:
        bits = zip(*(f"{row:0{n}b}" for row in reversed(rows)))
        return [int("".join(column), 2) for column in bits][::-1]
    return [rng.getrandbits(len(rows) + 1) >> 1 if how == "random" else 0 for _ in range(n)]


REGION = " region held cut"
KNOWN = " known oldheld oldcut"
CALLS = {
    "prepare": "size rows constants room",
    "hold": "atom" + REGION,
    "cut": "atom" + REGION,
    "column": "atom atoms rank index",
    "touched": "system index" + REGION + KNOWN,
    "inspect": "system rows constants basis index" + REGION + KNOWN + " forced",
    "probe": "system rows constants basis" + REGION,
}


def spoil(rng, state):
    """One fault that the caller's list names; the state may have others."""
    n, stray = state.n, 1 << state.n + rng.choice((0, 0, 1, 40))
    stray = stray if stray < 1 << 512 else 1 << 511
    how = rng.choice((9, 10, 11, 12, 13, 14, 15, 16, 18))
    if how == 9:
        state.short[rng.choice(("rows", "constants", "basis", "index"))] = 1
        few = max(0, state.rank - rng.randint(0, 1))
        state.forced = rng.choice(([few, few], [few, state.rank], [state.rank, few]))
        state.room[rng.randrange(4)] -= 1
        state.room = [max(0, length) for length in state.room]
    elif how == 10:
        name = rng.choice(("n", "m", "region_n", "known_n", "rank"))
        setattr(state, name, rng.choice((513, 600)))
    elif how == 11:
        part = rng.choice(("row", "constant", "held", "cut"))
        if part == "row" and state.rows:
            state.rows[rng.randrange(len(state.rows))] |= stray
        elif part == "constant" and state.constants:
            state.constants[rng.randrange(len(state.constants))] = rng.choice((2, 255))
        elif part in ("held", "cut"):
            setattr(state, part, getattr(state, part) | stray)
    elif how == 12:
        both = subset(rng, n, "sparse")
        state.held, state.cut = state.held | both, state.cut | both
    elif how == 13:
        if rng.getrandbits(1):
            state.rank = min(state.m, n) + 1
        elif state.basis:
            state.basis[rng.randrange(len(state.basis))] = state.m + rng.choice((0, 1, 600))
    elif how == 14 and state.columns:
        state.columns[rng.randrange(len(state.columns))] |= 1 << state.rank + rng.choice((0, 1, 64))
    elif how == 15:
        name = rng.choice(("region_n", "known_n"))
        setattr(state, name, max(0, n + rng.choice((-1, 1, 64, 128))))
    elif how == 16:
        if rng.getrandbits(1):
            state.old_held, state.old_cut = state.cut, state.held
        else:
            state.old_held |= subset(rng, n + 2, "sparse")
    elif how == 18:
        state.atom = n + rng.choice((0, 1, 63, 64, 1000))


def state_case(rng):
    if rng.random() < 0.2:
        return hull_case(rng)
    state = random_state(rng, *random_size(rng))
    for _ in range(rng.choice((0, 0, 1, 2))):
        spoil(rng, state)
    return state.line(rng.choices(list(CALLS), (3, 1, 1, 1, 3, 8, 4))[0])


def hull_case(rng):
    """Part of an affine set or a random table, now and then with a bad k or length."""
    k = rng.randint(0, 8)
    count = 2 * -(-(1 << k) // 128)
    if rng.getrandbits(1):
        allowed, share = affine_set(rng, k, rng.randrange(1 << k)), rng.choice((0.5, 0.9, 1))
        allowed = {pattern for pattern in allowed if rng.random() < share}
        word = int.from_bytes(table_words(rng, k, allowed), "little")
    else:
        word = rng.getrandbits(64 * count)
        for _ in range(rng.randint(0, 4)):
            word |= rng.getrandbits(64 * count)
    if rng.random() < 0.1:
        k = rng.choice((k, 9, 64, 255))
        count += rng.choice((-1, 1, 2))
    return " ".join([show("hull k", [k]), show("words", split(word, count), "{:x}")])


# Systems to prepare and columns, at every boundary


BORDERS = (0, 1, 63, 64, 65, 127, 128, 129, 191, 192, 193, 255, 256, 257, 511, 512, 513)
SIZES = [
    (n, m) for n in BORDERS for m in sorted({0, 1, 2, n - 1, n, n + 1, 127, 128, 129, 511, 512, 513}) if 0 <= m <= 513
]
STYLES = (
    "dense", "noise", "sparse", "pair", "ladder", "deficient", "units", "duplicates",
    "refuted first", "refuted middle", "refuted last",
)
FITTING = (  # what is wrong with the buffers of a system, or only longer than need be
    *(((part, step),) for part in ("rows", "constants", "basis", "unit atoms", "unit values", "index") for step in (-1, 1)),
    (("stray", 0),), (("stray", 63),), (("constant", 2),), (("constant", 255),),
    (("basis", -1), ("constant", 2)), (("index", -1), ("stray", 0)), (("rows", 1), ("constants", 1), ("index", 1)),
)


def sums(rng, rows, count):
    """So many sums of a few of the rows."""
    return [rng.choice(rows) ^ rng.choice(rows) ^ rng.choice((0, rng.choice(rows))) for _ in range(count)]


def system_rows(rng, n, m, style):
    """m rows over n atoms, and the number of the one that refutes them, or m."""
    if style == "ladder":
        lows = rng.sample(range(n), min(m, n))
        rows = [(rng.getrandbits(n) | 1) << low & (1 << n) - 1 for low in lows]
        return rows + sums(rng, rows or [0], m - len(rows)), m
    if style in ("deficient", "duplicates"):
        few = [subset(rng, n, "dense") for _ in range(rng.choice((1, 2, n // 2 + 1, max(1, min(m, n) - 1))))]
        return sums(rng, few, m) if style == "deficient" else rng.choices(few, k=m), m
    if style == "units":
        return [subset(rng, n, "pair") if rng.random() < 0.2 else n and 1 << rng.randrange(n) for _ in range(m)], m
    if not style.startswith("refuted"):
        return [subset(rng, n, "dense" if style == "noise" else style) for _ in range(m)], m
    rows = [subset(rng, n, rng.choice(("dense", "dense", "sparse"))) for _ in range(m)]
    at = min(m, {"first": 0, "middle": m // 2, "last": max(0, m - 1)}[style.split()[1]])
    rows[at : at + 1] = (sums(rng, rows[:at], 1) if at else [0]) if at < m else []
    return rows, at


def constants_for(rng, truth, rows, style, refuting):
    """Constants that the truth meets up to the row that refutes."""
    if style == "noise":
        return [rng.getrandbits(1) for _ in rows]
    return [(row & truth).bit_count() % 2 ^ (number == refuting) for number, row in enumerate(rows)]


def prepare_case(rng, number):
    """All pairs of sizes with all styles, then with all that can be wrong, then at random."""
    turn, at = divmod(number, len(SIZES))
    n, m = SIZES[at]
    style, faults = rng.choice(STYLES), ()
    if turn < len(STYLES):
        style = STYLES[turn]
    elif turn < len(STYLES) + len(FITTING):
        faults = FITTING[turn - len(STYLES)]
    else:
        faults = [fault for faults in rng.choices(FITTING, k=rng.randint(0, 2)) for fault in faults]
    rows, refuting = system_rows(rng, n, m, style)
    constants = constants_for(rng, rng.getrandbits(n + 1), rows, style, refuting)
    where = rng.choice((0, m // 2, max(0, m - 1)))
    for part, value in faults:
        if part == "stray" and m and n % 64:
            rows[where] |= 1 << n - n % 64 + max(value, n % 64)
        elif part == "constant" and m:
            constants[where] = value
    words = [word for row in rows for word in split(row, -(-n // 64))]
    room = dict(zip(("basis", "unit atoms", "unit values", "index"), room_for(n, m)))
    for part, step in faults:
        if part in room:
            room[part] = max(0, room[part] + step)
        elif part == "rows":
            words = words + [2**64 - 1] if step > 0 else words[:-1]
        elif part == "constants":
            constants = constants + [2] if step > 0 else constants[:-1]
    lists = show("rows", words, "{:x}"), show("constants", constants), show("room", room.values())
    return " ".join([show("prepare size", [n, m]), *lists])


def column_case(rng, number):
    """All pairs of an atom count and a rank, with an index that is fit or not."""
    turn, at = divmod(number, len(BORDERS) ** 2)
    n, rank = BORDERS[at // len(BORDERS)], BORDERS[at % len(BORDERS)]
    width = 2 * -(-rank // 128)
    index = [word for _ in range(n) for word in split(rng.choice((0, 1, 1 << rank >> 1, rng.getrandbits(rank + 1) >> 1)), width)]
    atom = rng.choice((0, n // 2, max(0, n - 1)))
    how = (turn + at) % 8
    if how == 1:
        index = index[:-1]
    elif how == 2:
        index += [2**64 - 1]
    elif how in (3, 4) and n and rank % 128:
        place = rng.choice((0, n // 2, n - 1)) * width + rng.choice((width - 1, rank // 64))
        index[place] |= 1 << (rng.choice((rank % 64, 63)) if place % width == rank // 64 else rng.randrange(64))
    elif how == 5:
        atom = rng.choice((n, n + 1, 2**64 - 1))
    return " ".join([f"column atom {atom} atoms {n} rank {rank}", show("index", index, "{:x}")])


# Decisions, touched rows, inspections and probes, and runs of them


def lent_sizes(rng, number, atoms=EDGES):
    """Small sizes, and all pairs of borders."""
    if number % 2:
        return rng.randint(0, 8), rng.randint(0, 8)
    at = number // 2
    return atoms[at % len(atoms)], EDGES[at // len(atoms) % len(EDGES)]


def narrow(rng, state):
    """Decides all but a few atoms, mostly as the constants have it, and gives most rows just one of those: they force it."""
    n, noise = state.n, rng.choice((0, 0, 0.1, 0.5))
    few = rng.sample(range(n), rng.randint(1, min(n, 4)))
    others = (1 << n) - 1 - sum(1 << atom for atom in few)
    state.rows = [row & others | (rng.random() < 0.9) << rng.choice(few) for row in state.rows]
    state.constants = [(row & state.truth).bit_count() % 2 ^ (rng.random() < noise) for row in state.rows]
    state.columns = marks(rng, n, [state.rows[b] for b in state.basis[: state.rank]])
    state.held, state.cut = others & state.truth, others & ~state.truth
    state.old_held, state.old_cut = state.old_held & state.held, state.old_cut & state.cut


def lent_case(rng, number):
    """A state that a C caller can lend: fit or with up to two faults, at times with a buffer that is too long."""
    state = random_state(rng, *lent_sizes(rng, number))
    if state.n and rng.random() < 0.4:
        narrow(rng, state)
    state.forced = [max(0, state.rank + rng.choice((0,) * 8 + (3, 3, 3, -1))) for _ in range(2)]
    for _ in range(rng.choice((0, 0, 0, 1, 2))):
        spoil(rng, state)
    if rng.random() < 0.2:
        state.short.setdefault(rng.choice(list(SPARE)), -1)
    for mask in ("held", "cut", "old_held", "old_cut"):
        setattr(state, mask, getattr(state, mask) % 2**512)
    return state.line(rng.choices(("hold", "cut", "touched", "inspect"), (1, 1, 2, 6))[0])


def probed_system(rng, n, m):
    """A system as preparation leaves it, or with any rows and any basis, which may name a row twice; the truth meets most rows."""
    style, truth, places = rng.choice(STYLES), rng.getrandbits(n + 1) & (1 << n) - 1, min(m, n)
    rows, refuting = system_rows(rng, n, m, style)
    constants = constants_for(rng, truth, rows, style, refuting)
    basis = rng.choices(range(m), k=places) if rng.getrandbits(1) else rng.sample(range(m), places)
    rank, refuted = rng.choice((places, rng.randint(0, places))), rng.random() < 0.1
    if rng.getrandbits(1):
        (_, _, rank, refuted), *_, left, basis, _ = reading.prepare(n, zip(rows, constants))
        rows, constants = [mask for mask, _ in left], [constant for _, constant in left]
        basis += [SPARE["basis"]] * (places - rank)
    return State(n=n, m=m, truth=truth, rank=rank, refuted=refuted, rows=rows, constants=constants, basis=basis, region_n=n,
                 known=False, short={}, told={})


def settle(rng, state):
    """Decides no atom, a few, half, nearly all or all: as the truth has them, but for a few, or anyhow; at times turns a constant."""
    n, few = state.n, min(state.n, rng.randint(1, 4))
    some = sum(1 << atom for atom in rng.sample(range(n), rng.choice((0, few, n // 2, n // 2, n - few, n))))
    values = state.truth ^ rng.choice((0, 0, subset(rng, n, "sparse"), rng.getrandbits(n + 1)))
    if state.rank and rng.random() < 0.3:
        state.constants[rng.choice(state.basis[: state.rank])] ^= 1
    state.held, state.cut = some & values, some & ~values


PROBE_FAULTS = (10, "rank", 9, 11, 12, "entry", 15)  # in the order of their numbers; both words are 13


def spoil_probe(rng, state, fault):
    """One fault, mostly just past its bound; none where the system is too small for it."""
    n, m, places = state.n, state.m, min(state.m, state.n)
    far, where = rng.choice((0, 0, 0, 1, 2**63)), rng.choice((0, m // 2, m - 1))
    if fault == 10:
        state.told[rng.choice(("n", "m", "region_n"))] = 513 + far
    elif fault == "rank":
        state.told["rank"] = places + 1 + far
    elif fault == 9:
        name, less = rng.choice((("rows", 1), ("constants", 1), ("basis", 1), ("basis", max(1, places - state.rank))))
        state.short[name] = less
    elif fault == 11:
        part = rng.choice(("row", "constant", "held", "cut"))
        if part == "row" and m and n % 64:
            state.rows[where] |= 1 << rng.choice((n, n | 63))
        elif part == "constant" and m:
            state.constants[where] = rng.choice((2, 255))
        elif part in ("held", "cut") and n < 512:
            setattr(state, part, getattr(state, part) | 1 << rng.choice((n, n | 63, 511)))
    elif fault == 12 and n:
        both = 1 << rng.choice((0, n - 1, rng.randrange(n)))
        state.held, state.cut = state.held | both, state.cut | both
    elif fault == "entry" and state.rank:
        state.basis[rng.choice((0, state.rank - 1))] = m + far
    elif fault == 15:
        state.region_n = min(512, n + 1) if rng.getrandbits(1) else max(0, n - 1)
        state.held, state.cut = (mask & (1 << state.region_n) - 1 for mask in (state.held, state.cut))


def probe_case(rng, number):
    """A probe of a small system or of one of all pairs of borders: fit, with a fault or with two, at times with a longer buffer."""
    state = probed_system(rng, *lent_sizes(rng, number, WIDTHS))
    settle(rng, state)
    if rng.random() < 0.2:
        state.short[rng.choice(("rows", "constants", "basis"))] = -1
    for fault in rng.sample(PROBE_FAULTS, rng.choice((0, 0, 0, 0, 1, 2, 2))):
        spoil_probe(rng, state, fault)
    return state.line("probe")


def run_case(rng, number):
    """Small systems, and those of all pairs of borders, in all styles; then calls."""
    n, m = lent_sizes(rng, number)
    style = rng.choice((*STYLES, "sparse", "pair", "pair", "pair"))
    rows, refuting = system_rows(rng, n, m, style)
    truth = rng.getrandbits(n + 1)
    constants = constants_for(rng, truth, rows, style, refuting)
    words = [word for row in rows for word in split(row, -(-n // 64))]
    lists = show("rows", words, "{:x}"), show("constants", constants)
    return " ".join([show("run size", [n, m]), *lists, "calls", *run_calls(rng, n, min(m, n), truth)])


def run_calls(rng, n, places, truth):
    """Decisions that mostly follow the truth, of few atoms or of nearly all, inspections and probes; some are refused."""
    follow, inspections, probes = rng.choice((0.5, 0.9, 1, 1)), rng.choice((0, 0.05, 0.2, 0.5)), rng.choice((0.02, 0.2, 0.5))
    atoms = rng.choices(range(n), k=rng.randint(0, 25)) if n else []
    if rng.random() < (0.5 if n < 70 else 0.1):
        atoms = rng.sample(range(n), n - rng.randint(0, min(n, 3))) + atoms[:5]
    atoms += [n, n + 1, 2**64 - 1][: rng.randint(0, 3)]
    if rng.random() < 0.5:
        rng.shuffle(atoms)
    lengths = [(places, places)] * 6 + [(places + 2, places), (places, places + 1), (0, places), (places, 0)]
    lengths.append((max(0, places - 1), places))
    for atom in atoms:
        value = (truth >> min(atom, n) & 1) ^ (rng.random() > follow)
        yield f"decide {atom} {value}"
        while rng.random() < inspections:
            yield show("inspect", rng.choice(lengths))
        if rng.random() < probes:
            yield "probe"
    for _ in range(rng.randint(0, 4)):
        yield show("inspect", rng.choice(lengths))
        yield "probe"


def tables(limit):
    """All tables of at most `limit` atoms."""
    for k in range(limit + 1):
        for word in range(1 << (1 << k)):
            yield f"hull k {k} words {word:x} 0"


def file_of(n, rows, calls=()):
    """Rows are (constant, atom, ...); calls are kind-4 pairs (atom, value) or kinds."""
    records = [(1, pack(n))] + [(2, bytes([constant]) + b"".join(map(pack, atoms))) for constant, *atoms in rows]
    records += [(call, b"") if isinstance(call, int) else (4, pack(call[0]) + bytes([call[1]])) for call in calls]
    return "file " + assemble(records).hex()


def settled():
    """The examples of document 01, and the longest file."""
    yield (
        "file 040001000300070002000100000100070002000001000200170003000200000200"
        "09000000000000000000000000000000020006000500040001000102000500020006000500040000" "0001"
    )
    for words in ("0 words 0 0", "0 words 1 0", "1 words 1 0", "2 words 9 0", "2 words 8 0", "3 words ff 0",
                  "8 words 0 0 0 0", "8 words 0 0"):
        yield f"hull k {words}"
    yield file_of(1, [(1, 0), (0, 0)], [6])
    yield file_of(1, [(1,)], [5, 6])
    yield file_of(0, [], [6])
    yield file_of(3, [(1, 0, 1), (1, 1, 2), (1, 0, 2)])
    yield file_of(2, [(1, 0, 1)], [(0, 1), (1, 1), 6])
    yield file_of(3, [(0, 0, 2), (1, 1, 2)], [(0, 1), (1, 1), 5, 5])
    yield file_of(512, [(1, 511)], [5])
    yield file_of(513, [])
    yield file_of(2, [(0, 0, 1)] * 512)
    yield file_of(2, [(0, 0, 1)] * 513)
    table = 3, b"\x08" + b"".join(map(pack, range(8))) + bytes(32)
    longest = assemble([(1, pack(8))] + [table] * 1236 + [(2, b"\x00")] * 2 + [(5, b"")] * 3)
    yield f"file {longest.hex()}"
    yield f"file {longest.hex()}00"


def small_states():
    """A grid of library states of at most two atoms and one row, fit or not, shortest first."""
    lines = {f"hull k {k} words" + " 0" * count for k in (0, 7, 8, 9) for count in range(6)}
    for n, m, rank, refuted, row, constant, entry, mark in itertools.product(
        (0, 1, 2), (0, 1), (0, 1, 2), (False, True), (0, 1, 2), (0, 1), (0, 1), (0, 1, 2, 1 << 64)
    ):
        places = max(rank, min(m, n))
        state = State(
            n=n, m=m, rank=rank, refuted=refuted, rows=[row] * m, constants=[constant + entry] * m,
            basis=[entry] * places, columns=[mark] * n, forced=[rank, rank], room=[places, places, places, 2 * n * constant],
            region_n=n, held=0, cut=0, known=False, short={}, atom=row, old_cut=0,
        )
        lines |= {state.line(call) for call in ("prepare", "hold", "cut", "column")}
        if rank > min(m, n) + 1 or not m and row + constant or not n * rank and mark:
            continue
        state.constants = [constant] * m
        for state.region_n, state.held, state.cut, (state.known, state.known_n, state.old_held) in itertools.product(
            (0, 1, 2, 129), (0, 1), (0, 1, 2), ((False, 0, 0), (True, 0, 0), (True, 1, 0), (True, 1, 1), (True, 2, 0))
        ):
            lines |= {state.line(call) for call in ("touched", "inspect", "probe")}
    return sorted(lines, key=lambda line: (len(line), line))


def any_file(rng):
    return assemble(valid_records(rng)) if rng.random() < 0.6 else damaged_file(rng)


def file_case(rng):
    return f"file {any_file(rng).hex()}".strip()


def short_file(rng):
    """A file of a few atoms, rows and calls in which a few bytes are changed, lost or put in; some are left as they are."""
    n = rng.randint(0, 6)
    truth = None if rng.random() < 0.2 else rng.getrandbits(n + 1) & (1 << n) - 1
    records = [(1, pack(n)), *system_records(rng, n, rng.randint(0, 4), 0.4, truth, 2000)]
    data = bytearray(assemble(records + call_records(rng, n, rng.randint(0, 4), truth)))
    for _ in range(rng.choice((0, 1, 1, 1, 2, 3))):
        at, how = rng.randrange(len(data) + 1), rng.randrange(4)
        byte = bytes([rng.choice((0, 1, 2, 3, 4, 5, 6, n, 255, rng.getrandbits(8)))])
        data[at : at + (how > 0)] = byte if how < 3 else b""
    return bytes(data[: rng.randrange(len(data) + 1)] if rng.random() < 0.1 else data)


def case(seed, number):
    """Two files, then a state."""
    rng = random.Random(f"{seed}/{number}")
    return state_case(rng) if number % 3 == 2 else file_case(rng)


if __name__ == "__main__":
    seed = sys.argv[2] if len(sys.argv) > 2 else "0"
    for number in range(int(sys.argv[1])):
        print(case(seed, number))
