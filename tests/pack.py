#!/usr/bin/env python3
"""Packs recorded answers into the standard input of the program replay, and the lines it must print.

    tests/pack.py            writes crates/replay/stdin and crates/replay/stdout
    tests/pack.py check      ends with 1 where they are not what it would write

Numbers are little-endian, 2 bytes each; words, and the length of a case or of a file, have 8. A list is its length in 2 bytes and then its
entries. The input has the tables, the library's systems but those of short buffers, and the files, but for cases of more than 65,000 bytes.
Each of the three begins with the number of its cases; a case is its length in bytes, then what crates/replay/src/tables.rt, systems.rt and
files.rt say.
"""

import os
import struct
import sys

import reading

HERE = os.path.dirname(os.path.abspath(__file__))
RECORDED = os.path.join(HERE, "recorded", "answers.txt")
REPLAY = os.path.join(HERE, "..", "crates", "replay")
MOST_BYTES, ROOM = 65000, 500000  # of a case, and of all: crates/replay/src/main.rt reads no more
CALLS = {"inspect": 2, "probe": 3}


def numbers(*values):
    return struct.pack(f"<{len(values)}H", *values)


def word_list(values):
    return numbers(len(values)) + struct.pack(f"<{len(values)}Q", *values)


def number_list(values):
    return numbers(len(values), *values)


def byte_list(values):
    return numbers(len(values)) + bytes(values)


def counted(data):
    return struct.pack("<Q", len(data)) + data


def pack_table(case, answer):
    """A case `hull k K words W...` with its answer `refused N` or `hull COUNT exact C V...`."""
    _, _, k, _, *words = case.split()
    said = answer[0].split()
    if said[0] == "refused":
        result = [int(said[1]), 0, 0]
    else:
        result = [0, int(said[1]), int(said[2] == "exact"), *map(int, said[3:])]
    return numbers(int(k)) + word_list([int(word, 16) for word in words]) + number_list(result + [0] * (19 - len(result)))


def pack_prepared(said, left):
    """What preparation answers, `refused N` or `system ...`, and what it leaves."""
    tokens = said.split()
    result = [int(tokens[1])] + [0] * 7
    if tokens[0] == "system":
        atoms, rows, rank, additions, units, incidences = map(int, tokens[1:7])
        result = [0, atoms, rows, rank, int(tokens[7] == "refuted"), additions, units, incidences]
    lists = word_list(left["rows"]), byte_list(left["constants"]), number_list(left["basis"])
    units = number_list(left["units"][::2]), byte_list(left["units"][1::2])
    return b"".join([number_list(result), *lists, *units, word_list(left["index"])])


def pack_system(case, answer):
    """A case `prepare size N M rows ... constants ...` with its answer on one line, or none where a buffer is short."""
    (said,) = answer
    if said == "refused 9":
        return None
    given = reading.read_fields(case.split()[1:])
    left = {**given, "basis": [], "units": [], "index": []}
    if said.startswith("system"):
        left = reading.read_fields(said[said.index("rows") :].split())
    return numbers(*given["size"]) + word_list(given["rows"]) + byte_list(given["constants"]) + pack_prepared(said, left)


def pack_call(line, left):
    """A line of `swaps` and the internals behind it: the call, region, forced list and knowledge."""
    kind, *said = line.split()
    call = [int(said[1]), int(said[0])] if kind == "decide" else [CALLS[kind], 0]
    forced, known = left["forced"], left["known"]
    lists = numbers(*call), word_list(left["held"]), word_list(left["cut"]), number_list(forced[::2]), byte_list(forced[1::2])
    told = number_list([len(forced) // 2, len(known), *known])
    return b"".join([*lists, told, word_list(left.get("oldheld", [])), word_list(left.get("oldcut", []))])


def pack_file(case, answer):
    """A case `file HEX` with its lines and internals."""
    internals = [reading.read_fields(line.split()[1:]) for line in answer if line.split()[0] in ("prepared", "after")]
    lines = [line for line in answer if line.split()[0] not in ("prepared", "after")]
    text = "".join(line + "\n" for line in lines).encode()
    packed = counted(bytes.fromhex(case[4:])) + byte_list(text)
    if internals:
        packed += pack_prepared(lines[0], internals[0]) + numbers(len(lines) - 1)
        packed += b"".join(map(pack_call, lines[1:], internals[1:]))
    return packed


def packed():
    with open(RECORDED, encoding="ascii") as recorded:
        blocks = list(reading.blocks(recorded.read()))
    packers = {"propose": ("hull", pack_table), "prepare": ("prepare", pack_system), "files": ("file", pack_file)}
    for call, (kind, pack) in packers.items():
        cases = [pack(case, answer) for case, answer in blocks if case.split()[0] == kind]
        yield call, [case for case in cases if case and len(case) <= MOST_BYTES]


def main(mode="write"):
    groups = dict(packed())
    said = "".join(f"{len(cases)} of {len(cases)} recorded answers of {call} agree\n" for call, cases in groups.items())
    given = b"".join(numbers(len(cases)) + b"".join(map(counted, cases)) for cases in groups.values())
    if len(given) > ROOM or mode not in ("write", "check"):
        sys.exit(__doc__ if len(given) <= ROOM else f"{len(given)} bytes are more than replay reads")
    for name, content in {"stdin": given, "stdout": said.encode()}.items():
        path = os.path.join(REPLAY, name)
        if mode == "write":
            with open(path, "wb") as file:
                file.write(content)
        else:
            with open(path, "rb") as file:
                if file.read() != content:
                    sys.exit(f"crates/replay/{name} is not what tests/pack.py writes")


if __name__ == "__main__":
    main(*sys.argv[1:])
