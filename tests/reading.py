#!/usr/bin/env python3
"""A second reading of document 01, written from its text alone.

    reading.py lines FILE|-        a records file in, the lines of `swaps` out
    reading.py internals FILE|-    the same with internals
    reading.py states FILE|-       library states in, one a line, and their answers out
    reading.py batch FILE|-        cases in, one a line, and blocks of case and answer out
    reading.py replay FILE ...     recorded blocks in; says how many this reading agrees with

docs/ORACLE.md has the text forms. A set of atoms is an int: bit a is atom a. A row is a pair, set and constant.
"""

import re
import sys
from collections import namedtuple

Region = namedtuple("Region", "n held cut")
System = namedtuple("System", "n m rank refuted")
Prepared = namedtuple("Prepared", "system additions units incidences rows basis columns")


class Refused(Exception):
    """A number of 'Who can be told no', and for a file the offset."""


def refuse(number, when):
    if when:
        raise Refused(number)


def odd(mask):
    return mask.bit_count() % 2


def lowest(mask):
    return (mask & -mask).bit_length() - 1


def members(mask):
    while mask:
        yield lowest(mask)
        mask &= mask - 1


def ceil(number, unit):
    return -(-number // unit)


# Modules in order


def propose(k, forbidden):
    """Hull: the equations (coefficients, constant) of a table, and whether they are exact."""
    allowed = [pattern for pattern in range(1 << k) if not forbidden >> pattern & 1]
    if not allowed:
        return [(0, 1)], True
    anchor, pivots = allowed[0], {}
    for pattern in allowed:
        difference = pattern ^ anchor
        while difference:
            position = lowest(difference)
            if position not in pivots:
                pivots[position] = difference
                break
            difference ^= pivots[position]
    free = [position for position in range(k) if position not in pivots]
    others = sum(1 << position for position in free)

    def equation(position):
        for mask in range(1 << k):
            if mask & others == 1 << position and not any(odd(mask & pivot) for pivot in pivots.values()):
                return mask, odd(mask & anchor)

    return [equation(position) for position in free], len(allowed) == 1 << len(pivots)


def prepare(n, rows):
    rows, owner, basis, additions, refuted = list(rows), {}, [], 0, False
    for number, (mask, constant) in enumerate(rows):
        while mask and lowest(mask) in owner:
            other, flip = rows[owner[lowest(mask)]]
            mask, constant, additions = mask ^ other, constant ^ flip, additions + 1
        rows[number] = mask, constant
        if mask:
            owner[lowest(mask)] = number
            basis.append(number)
        elif constant:
            refuted = True
            break
    system = System(n, len(rows), len(basis), refuted)
    if refuted:
        return Prepared(system, additions, [], 0, rows, basis, [])
    units = [(lowest(rows[b][0]), rows[b][1]) for b in basis if rows[b][0].bit_count() == 1]
    columns = [sum(1 << j for j, b in enumerate(basis) if rows[b][0] >> atom & 1) for atom in range(n)]
    incidences = sum(column.bit_count() for column in columns)
    return Prepared(system, additions, units, incidences, rows, basis, columns)


def decide(region, atom, value):
    n, held, cut = region
    for mask, its_value in ((held, 1), (cut, 0)):
        if mask >> atom & 1:
            return region, "same" if value == its_value else "against"
    return (Region(n, held | 1 << atom, cut) if value else Region(n, held, cut | 1 << atom)), "taken"


def touched(rank, columns, region, known):
    if known is None:
        return list(range(rank))
    marked = 0
    for atom in members((region.held | region.cut) ^ known.held ^ known.cut):
        marked |= columns[atom]
    return [j for j in range(rank) if marked >> j & 1]


def inspect(system, rows, basis, columns, region, known):
    """Answer, held, cut; then the region, the forced list and the knowledge."""
    if system.refuted:
        return ("refuted", 0, 0), region, [], known
    if system.rank == 0:
        return ("unchanged", 0, 0), region, [], known
    forced = []
    for j in touched(system.rank, columns, region, known):
        mask, constant = rows[basis[j]]
        value = constant ^ odd(mask & region.held)
        undecided = mask & ~(region.held | region.cut)
        if not undecided and value:
            return ("refuted", 0, 0), region, forced, known
        if undecided.bit_count() == 1:
            forced.append((lowest(undecided), value))
    known, counts = region, [0, 0]
    for atom, value in forced:
        region, answer = decide(region, atom, value)
        if answer == "against":
            return ("refuted", counts[1], counts[0]), region, forced, known
        counts[value] += answer == "taken"
    return ("changed" if any(counts) else "unchanged", counts[1], counts[0]), region, forced, known


def probe(system, rows, basis, region):
    """Yes or no, u, k."""
    n, held, cut = region
    u = n - (held | cut).bit_count()
    if system.refuted:
        return "no", u, 0
    kept = []
    for b in basis[: system.rank]:
        mask, constant = rows[b]
        constant ^= odd(mask & held)
        mask &= ~(held | cut)
        for low, other, flip in kept:
            if mask & low:
                mask, constant = mask ^ other, constant ^ flip
        if mask:
            kept.append((mask & -mask, mask, constant))
        elif constant:
            return "no", u, len(kept)
    return "yes", u, len(kept)


# The records


def check_file(file):
    """n, rows and calls."""
    if len(file) > 65536:
        raise Refused(8, 65536)
    if not file:
        raise Refused(2, 0)
    found, at = {"n": None, "rows": [], "calls": []}, 0
    while at < len(file):
        try:
            at += check_record(file[at:], found)
        except Refused as refusal:
            raise Refused(*refusal.args, at) from None
    return found["n"], found["rows"], found["calls"]


def check_record(rest, found):
    """Adds the first record to what is found; its size."""
    refuse(1, len(rest) < 2)
    length = little(rest[:2])
    refuse(1, length < 2 or 2 + length > len(rest))
    kind, body = little(rest[2:4]), rest[4 : 2 + length]
    refuse(2, kind not in (1, 2, 3, 4, 5, 6))
    refuse(2, (kind == 1) != (found["n"] is None))
    refuse(2, kind in (2, 3) and found["calls"])
    if kind == 1:
        refuse(3, len(body) != 2)
        refuse(4, little(body) > 512)
        found["n"] = little(body)
    elif kind in (2, 3):
        rows = (row if kind == 2 else table)(body, found["n"])
        refuse(7, len(found["rows"]) + len(rows) > 512)
        found["rows"] += rows
    else:
        refuse(3, len(body) != (3 if kind == 4 else 0))
        refuse(4, kind == 4 and (little(body[:2]) >= found["n"] or body[2] > 1))
        found["calls"].append((kind, body))
    return 2 + length


def little(data):
    return int.from_bytes(data, "little")


def atoms_in(data):
    return [little(data[at : at + 2]) for at in range(0, len(data), 2)]


def set_of(atoms):
    mask = 0
    for atom in atoms:
        mask |= 1 << atom
    return mask


def row(body, n):
    refuse(3, len(body) % 2 == 0)
    atoms = atoms_in(body[1:])
    refuse(4, body[0] > 1 or any(atom >= n for atom in atoms))
    return [(set_of(atoms), body[0])]


def table(body, n):
    refuse(3, not body)
    k = body[0]
    refuse(4, k > 8)
    refuse(3, len(body) != 1 + 2 * k + 8 * 2 * ceil(2**k, 128))
    atoms = atoms_in(body[1 : 1 + 2 * k])
    refuse(4, any(atom >= n for atom in atoms))
    refuse(5, atoms != sorted(set(atoms)))
    equations, exact = propose(k, little(body[1 + 2 * k :]))
    refuse(6, not exact)
    return [(set_of(atoms[i] for i in members(mask)), constant) for mask, constant in equations]


# A file and its lines


def answer_file(file, internals):
    """The lines: those of `swaps`, each followed by its internals if they are wanted."""
    try:
        n, rows, calls = check_file(file)
    except Refused as refusal:
        return ["refused {} at {}".format(*refusal.args)]
    prepared = prepare(n, rows)
    region, known = Region(n, 0, 0), None
    lines = [system_line(prepared), "prepared " + show_prepared(prepared)]
    for kind, body in calls:
        forced = []
        if kind == 4:
            atom, value = little(body[:2]), body[2]
            region, answer = decide(region, atom, value)
            line = f"decide {atom} {value} {answer}"
        elif kind == 5:
            buffers = prepared.rows, prepared.basis, prepared.columns
            answer, region, forced, known = inspect(prepared.system, *buffers, region, known)
            line = "inspect {} {} {}".format(*answer)
        else:
            line = "probe {} {} {}".format(*probe(prepared.system, prepared.rows, prepared.basis, region))
        lines += [line, "after " + show_state(region, forced, known)]
    return lines if internals else [line for line in lines if line.split()[0] not in ("prepared", "after")]


def load_file(file):
    """The line of a file's load: number and place of the check, atoms, rows, their words and their constants."""
    try:
        n, rows, _ = check_file(file)
    except Refused as refusal:
        return "loaded {} {} 0 0".format(*refusal.args)
    kept = [word for mask, _ in rows for word in words(mask, ceil(n, 64))]
    return show("loaded 0 0", [n, len(rows), *kept, *(constant for _, constant in rows)])


def system_line(prepared):
    n, m, rank, refuted = prepared.system
    counts = f"{prepared.additions} {len(prepared.units)} {prepared.incidences}"
    return f"system {n} {m} {rank} {counts} {'refuted' if refuted else 'sound'}"


def show(name, values):
    return " ".join([name, *map(str, values)])


def words(mask, count):
    """A set as words, hexadecimal."""
    return [f"{mask >> 64 * at & 2**64 - 1:x}" for at in range(count)]


def show_prepared(prepared):
    n, _, rank, _ = prepared.system
    return " ".join([
        show("rows", [word for mask, _ in prepared.rows for word in words(mask, ceil(n, 64))]),
        show("constants", [constant for _, constant in prepared.rows]),
        show("basis", prepared.basis),
        show("units", [number for unit in prepared.units for number in unit]),
        show("index", [word for column in prepared.columns for word in words(column, 2 * ceil(rank, 128))]),
    ])


def show_region(region, held="held", cut="cut"):
    count = ceil(region.n, 64)
    return show(held, words(region.held, count)) + " " + show(cut, words(region.cut, count))


def show_state(region, forced, known):
    lists = show_region(region), show("forced", [number for pair in forced for number in pair])
    old = f"{known.n} {show_region(known, 'oldheld', 'oldcut')}" if known else "fresh"
    return " ".join([*lists, "known", old])


# Library states


def answer_state(line):
    call, *tokens = line.split()
    fields = read_fields(tokens)
    try:
        return CALLS[call](fields)
    except Refused as refusal:
        return show("refused", refusal.args)


def refusal(line):
    """`refused N` alone, or none where the state is fit."""
    call, *tokens = line.split()
    try:
        (check_hull if call == "hull" else check_call)(read_fields(tokens))
    except Refused as refused:
        return show("refused", refused.args)
    return None


def read_fields(tokens):
    """A token with a letter after f is a name; its values follow it, up to the next name."""
    fields, name = {}, None
    for token in tokens:
        if re.search("[g-z]", token):
            name = token
            fields[name] = []
        else:
            hexadecimal = name in ("words", "rows", "index", "held", "cut", "oldheld", "oldcut")
            fields[name].append(int(token, 16 if hexadecimal else 10))
    return fields


def joined(values):
    """Words as one set."""
    return sum(word << 64 * at for at, word in enumerate(values))


class Lent:
    """What a call is lent, with None where it has no such thing."""

    def __init__(self, fields):
        (self.atom,) = fields.get("atom", [None])
        (self.n,) = fields.get("atoms", [None])
        (self.rank,) = fields.get("rank", [None])
        self.m = None
        if "size" in fields:
            self.n, self.m = fields["size"]
        if "system" in fields:
            self.n, self.m, self.rank = fields["system"]
        self.refuted = "refuted" in fields
        self.system = System(self.n, self.m, self.rank, self.refuted)
        self.region = self.known = None
        if "region" in fields:
            self.region = Region(*fields["region"], joined(fields["held"]), joined(fields["cut"]))
        if fields.get("known"):
            self.known = Region(*fields["known"], joined(fields["oldheld"]), joined(fields["oldcut"]))
        buffers = ("rows", "constants", "basis", "index")
        self.lengths = {name: len(fields[name]) for name in buffers if name in fields}
        self.lengths |= zip(("basis", "unit atoms", "unit values", "index"), fields.get("room", []))
        forced = fields.get("forced", [])
        self.lengths |= zip(("forced atoms", "forced values"), 2 * forced if len(forced) == 1 else forced)
        self.basis = fields.get("basis", [])[: self.rank]
        self.fields = fields

    def slices(self, name, count, width):
        return [joined(self.fields[name][at * width : (at + 1) * width]) for at in range(count)]

    def read(self):
        """Rows and columns, once the lengths are known to be fit."""
        self.rows = self.columns = []
        if "rows" in self.fields:
            masks = self.slices("rows", self.m, ceil(self.n, 64))
            self.rows = list(zip(masks, self.fields["constants"]))
        if "index" in self.fields:
            self.columns = self.slices("index", self.n, 2 * ceil(self.rank, 128))


def check_call(fields):
    """The caller's list: 10 first, then 13 for the rank, then 9 and the rest rising, where the call has the thing."""
    lent = Lent(fields)
    region, known = lent.region, lent.known
    counts = [thing.n for thing in (lent, region, known) if thing and thing.n is not None]
    refuse(10, max(counts + [lent.m or 0]) > 512 or lent.m is None and (lent.rank or 0) > 512)
    refuse(13, None not in (lent.m, lent.rank) and lent.rank > min(lent.m, lent.n))
    refuse(9, any(length < wanted(lent, name) for name, length in lent.lengths.items()))
    lent.read()
    refuse(11, any(mask >> lent.n or constant > 1 for mask, constant in lent.rows))
    refuse(11, region and (region.held | region.cut) >> region.n)
    refuse(12, region and region.held & region.cut)
    refuse(13, any(entry >= lent.m for entry in lent.basis))
    refuse(14, not lent.refuted and any(column >> lent.rank for column in lent.columns))
    refuse(15, len(set(counts)) > 1)
    refuse(16, known and (known.held & ~region.held or known.cut & ~region.cut))
    refuse(18, lent.atom is not None and lent.atom >= counts[0])
    return lent


def wanted(lent, name):
    """The length of a lent buffer."""
    if name in ("rows", "constants"):
        return lent.m * (ceil(lent.n, 64) if name == "rows" else 1)
    if name in ("forced atoms", "forced values"):
        return lent.rank
    if name in ("basis", "unit atoms", "unit values"):
        return min(lent.m, lent.n)
    return lent.n * 2 * ceil(min(lent.m, lent.n) if lent.rank is None else lent.rank, 128)


def check_hull(fields):
    (k,) = fields["k"]
    refuse(17, k > 8 or len(fields["words"]) != 2 * ceil(2**k, 128))
    return k


def call_hull(fields):
    k = check_hull(fields)
    equations, exact = propose(k, joined(fields["words"]))
    pairs = [number for equation in equations for number in equation]
    return show(f"hull {len(equations)}", ["exact" if exact else "inexact", *pairs])


def call_prepare(fields):
    lent = check_call(fields)
    prepared = prepare(lent.n, lent.rows)
    return f"{system_line(prepared)} {show_prepared(prepared)}"


def call_decide(value):
    def call(fields):
        lent = check_call(fields)
        region, answer = decide(lent.region, lent.atom, value)
        return f"{answer} {show_region(region)}"

    return call


def call_column(fields):
    lent = check_call(fields)
    return show("column", words(lent.columns[lent.atom], 2 * ceil(lent.rank, 128)))


def call_touched(fields):
    lent = check_call(fields)
    return show("touched", touched(lent.rank, lent.columns, lent.region, lent.known))


def call_inspect(fields):
    lent = check_call(fields)
    answer, *state = inspect(lent.system, lent.rows, lent.basis, lent.columns, lent.region, lent.known)
    return f"{show('inspect', answer)} {show_state(*state)}"


def call_probe(fields):
    lent = check_call(fields)
    return show("probe", probe(lent.system, lent.rows, lent.basis, lent.region))


CALLS = {
    "hull": call_hull,
    "prepare": call_prepare,
    "hold": call_decide(1),
    "cut": call_decide(0),
    "column": call_column,
    "touched": call_touched,
    "inspect": call_inspect,
    "probe": call_probe,
}


# Runs


def read_run(case):
    """What comes before the calls, and each of them: its name and its numbers."""
    head, *rest = re.split(" (?=calls|decide|inspect|probe)", case)
    return head, [(name, *map(int, numbers)) for name, *numbers in map(str.split, rest[1:])]


def answer_run(case):
    """What preparation answers and leaves, then each call and the state after it; a refused one leaves what it found."""
    head, calls = read_run(case)
    lent = check_call(read_fields(head.split()[1:]))
    prepared = prepare(lent.n, lent.rows)
    buffers = prepared.rows, prepared.basis, prepared.columns
    region, known = Region(lent.n, 0, 0), None
    answers = [f"{system_line(prepared)} {show_prepared(prepared)}"]
    for name, *numbers in calls:
        forced = []
        if name == "decide":
            (atom, value), answer = numbers, "refused 18"
            if atom < lent.n:
                region, answer = decide(region, atom, value)
            answer = f"{atom} {value} {answer}"
        elif name == "probe":
            answer = "{} {} {}".format(*probe(prepared.system, prepared.rows, prepared.basis, region))
        elif min(numbers) < prepared.system.rank:
            answer = "refused 9"
        else:
            said, region, forced, known = inspect(prepared.system, *buffers, region, known)
            answer = "{} {} {}".format(*said)
        answers.append(f"{name} {answer} {show_state(region, forced, known)}")
    return "; ".join(answers)


# Modes


def answer_case(case):
    """The lines of one case: `file` and its bytes in hexadecimal, a run, or a library state."""
    if case.startswith("file"):
        return answer_file(bytes.fromhex(case[4:]), True)
    return [answer_run(case) if case.startswith("run") else answer_state(case)]


def blocks(text):
    """The recorded (case, lines of the answer)."""
    for block in text.strip("\n").split("\n\n"):
        case, *lines = block.split("\n")
        yield case, lines


def replay(paths):
    total = agreed = 0
    for path in paths:
        with open(path, encoding="ascii") as recorded:
            for case, lines in blocks(recorded.read()):
                total += 1
                agreed += answer_case(case) == lines
    print(f"{agreed} of {total} recorded answers agree")
    return 0 if agreed == total > 0 else 1


def main(mode, *paths):
    if mode == "replay":
        return replay(paths)
    with open(0 if paths[0] == "-" else paths[0], "rb") as source:
        data = source.read()
    if mode in ("lines", "internals"):
        lines = answer_file(data, mode == "internals")
    elif mode == "states":
        lines = [answer_state(line) for line in data.decode("ascii").splitlines()]
    elif mode == "batch":
        cases = data.decode("ascii").splitlines()
        lines = [line for case in cases for line in (case, *answer_case(case), "")]
    print("\n".join(lines), end="\n" if lines else "")
    return 0


if __name__ == "__main__":
    sys.exit(main(*sys.argv[1:]))
