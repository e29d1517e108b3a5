#!/usr/bin/env python3
"""Makes small runs of the desk from a fixed seed, right and damaged.

    bench/make_runs.py FOLDER [NUMBER]

writes for each run NNNN.run, NNNN.tape and NNNN.words, the words of its command line, one a line.
"""
import itertools
import pathlib
import random
import struct
import sys
from dataclasses import dataclass

SEED = 20251118
PLACES_OF_RING = 65_536
PAGE = 2_048
RUN, TAPE = "@run", "@tape"


def ring_sums():
    """The sums of the weights of the places 0 to j, for each j, by the rule."""
    weights = [1 << 40]
    while len(weights) <= PLACES_OF_RING // 2:
        weights.append(-(-4 * weights[-1] // 5))
    return list(itertools.accumulate(weights[min(j, PLACES_OF_RING - j)] for j in range(PLACES_OF_RING)))


SUMS = ring_sums()
TOTAL = SUMS[-1]
BOUND = 1_864_135 * TOTAL


@dataclass
class Run:
    """The bytes of the two files, and the command line with `@run` and `@tape` where their names go."""
    run: bytes
    tape: bytes
    words: list

    def command(self, run, tape):
        names = {RUN: str(run), TAPE: str(tape)}
        return [names.get(word, word) for word in self.words]


# Words, pages and tapes.

def edge_word(rng, places):
    """A word at an edge: of a draw, of the numbers as printed, or of the bound."""
    kind = rng.randrange(8)
    if kind == 0:
        return rng.choice([BOUND - 1, BOUND - 2, BOUND - TOTAL])
    if kind == 1:
        j = rng.choice([0, 1, 2, 118, 119, 120, 121, 32_767, 32_768, 65_415, 65_416, 65_417, 65_534, 65_535])
    elif kind == 2:
        j = rng.randrange(PLACES_OF_RING)
    elif kind == 3:
        j = (49_152 - rng.randrange(min(places, 200) + 2)) % PLACES_OF_RING
    elif kind == 4:
        j = rng.randrange(-3, 4) % PLACES_OF_RING
    else:
        return rng.randrange(1_864_135) * TOTAL + rng.randrange(TOTAL)
    draw = SUMS[j] - 1 if rng.randrange(2) else SUMS[j - 1] if j else 0
    if rng.randrange(4) == 0:
        draw = min(draw + 1, TOTAL - 1)
    return rng.choice([0, 0, 1, rng.randrange(1_864_135), 1_864_134]) * TOTAL + draw


def rejected_word(rng):
    return rng.choice([BOUND, BOUND + 1, 2**64 - 1, rng.randrange(BOUND, 2**64)])


def page(rng, kind, places):
    if kind == "zeros":
        return bytes(PAGE)
    if kind == "random":
        return rng.randbytes(PAGE)
    if kind == "rejected":
        return b"".join(struct.pack("<Q", rejected_word(rng)) for _ in range(256))
    words = []
    for _ in range(64):
        ahead = rng.choice([0, 0, 0, 1, 2, 3, 4])
        words += [rejected_word(rng) for _ in range(ahead)]
        words += [edge_word(rng, places) for _ in range(4 - ahead)]
    return struct.pack("<256Q", *words)


def tape(rng, places, turns):
    kind = rng.choice(["zeros", "random", "edges", "edges", "edges", "rejected"])
    pages = rng.choice([0, 1, 2, turns // 2] + 5 * [turns] + 3 * [turns + 2])
    more = rng.choice([0, 0, 0, 1, 7, 8, PAGE // 2, PAGE - 1])
    return b"".join(page(rng, kind, places) for _ in range(pages)) + rng.randbytes(more)


# Predicates.

def leaf(rng):
    return bytes([1, rng.choice([0, 1, 2, 3, rng.randrange(16)]), rng.choice([0, 1, 2, 255, rng.randrange(256), rng.randrange(256)])])


def predicate(rng, tokens, shape):
    """A predicate of exactly so many tokens."""
    if tokens == 1:
        return leaf(rng)
    if tokens == 2 or shape == "nots" or (shape == "any" and rng.randrange(3) == 0):
        return b"\x03" + predicate(rng, tokens - 1, shape)
    first = {"left": tokens - 2, "right": 1}.get(shape) or rng.randrange(1, tokens - 1)
    return b"\x02" + predicate(rng, first, shape) + predicate(rng, tokens - 1 - first, shape)


def any_predicate(rng):
    tokens = rng.choice([1, 1, 1, 2, 3, 4, 5, 8, 16, 31, 63, 64, 64, rng.randrange(1, 65)])
    return predicate(rng, tokens, rng.choice(["any", "any", "left", "right", "nots"]))


# Lines.

def edit(rng, places, place=None, row=None):
    place = rng.randrange(places) if place is None else place
    return b"\x01" + struct.pack("<H", place) + (row or some_row(rng))


def some_row(rng):
    return bytes([rng.choice([0, 1, 1])]) + rng.randbytes(15)


def cuts(rng):
    number = rng.choice([1, 2, 3, 7, 31, 62, 63, rng.randrange(1, 64)])
    return bytes(sorted(rng.sample(range(256), number)))


def query(rng, analyst, kind=None, test=None):
    test = any_predicate(rng) if test is None else test
    if (kind or rng.choice([1, 1, 2])) == 1:
        return bytes([2, analyst, 1]) + test
    some = cuts(rng)
    return bytes([2, analyst, 2, rng.choice([0, 1, 2, rng.randrange(16)]), len(some)]) + some + test


def long_predicate(rng):
    """A 65th token that is a token, any byte, or not there."""
    start = rng.choice([b"\x03" * 64, b"\x02" * 64, predicate(rng, 60, "right")[:-3] + b"\x03" * 5])
    return rng.choice([
        predicate(rng, rng.choice([65, 66, 80, 200]), rng.choice(["any", "left", "right", "nots"])),
        start + bytes([rng.randrange(256)]),
        start + rng.randbytes(rng.randrange(5)),
        start,
    ])


def bad_edit(rng, places):
    good = edit(rng, places)
    return rng.choice([
        lambda: good[:rng.randrange(1, 19)],
        lambda: good + rng.randbytes(rng.choice([1, 1, 2, 300])),
        lambda: edit(rng, places, place=min(65_535, rng.choice([places, places + 1, 65_535]))),
        lambda: edit(rng, places, row=bytes([rng.choice([2, 3, 255])]) + rng.randbytes(15)),
        lambda: edit(rng, places, place=65_535, row=b"\x02" + bytes(15)),
        lambda: edit(rng, places, row=b"\x02" + bytes(15))[:rng.randrange(1, 19)],
    ])()


def bad_head(rng, analyst):
    """A query whose head is damaged."""
    some = cuts(rng)
    head = [2, analyst, 2, rng.randrange(16)]
    fall = bytearray(some + bytes([some[-1]]))
    if len(some) > 2:
        k = rng.randrange(1, len(some))
        fall = bytearray(some)
        fall[k] = rng.choice([fall[k - 1], rng.randrange(fall[k - 1] + 1)])
    return rng.choice([
        lambda: bytes([2, analyst, rng.choice([0, 3, 4, 255])]) + any_predicate(rng),
        lambda: bytes([2, analyst, 2, rng.choice([16, 17, 255]), 1, 5]) + leaf(rng),
        lambda: bytes(head + [rng.choice([0, 64, 65, 255])]) + rng.randbytes(70) + leaf(rng),
        lambda: bytes(head + [0]),
        lambda: bytes(head + [len(fall)]) + bytes(fall) + any_predicate(rng),
        lambda: bytes(head + [2, 9, 9]) + any_predicate(rng),
        lambda: bytes([2, analyst, 2, 16, 0]),
    ])()


def bad_predicate(rng, analyst):
    """A query whose predicate is damaged."""
    good = any_predicate(rng)
    at = rng.randrange(len(good))
    nots = b"\x03" * rng.randrange(5)
    return query(rng, analyst, test=rng.choice([
        lambda: long_predicate(rng),
        lambda: long_predicate(rng),
        lambda: good[:at] + bytes([rng.choice([0, 4, 255])]) + good[at + 1:],
        lambda: nots + bytes([rng.choice([0, 4, 5, 255])]) + rng.randbytes(rng.randrange(4)),
        lambda: nots + bytes([1, rng.choice([16, 17, 255])]) + rng.randbytes(rng.randrange(3)),
        lambda: b"\x02" + good + bytes([1, rng.randrange(16, 256), 9]),
        lambda: good + rng.randbytes(rng.choice([1, 1, 2, 300])),
        lambda: good[:at],
    ])())


def damaged(rng, line):
    """A line with a few bytes changed, cut, or put in."""
    line = bytearray(line)
    for _ in range(rng.randrange(1, 4)):
        at = rng.randrange(len(line) + 1)
        kind = rng.randrange(3)
        if kind == 0 and at < len(line):
            line[at] = rng.choice([line[at] ^ 1 << rng.randrange(8), rng.randrange(256), rng.randrange(4)])
        elif kind == 1:
            del line[at:]
        else:
            line[at:at] = rng.randbytes(1)
    return bytes(line)


def any_line(rng, places, units):
    """A line, mostly of an analyst with a budget."""
    analysts = len(units)
    holders = [analyst for analyst in range(analysts) for _ in range(units[analyst])]
    analyst = rng.choice(holders * 3 + list(range(analysts)))
    kind = rng.randrange(26)
    if kind < 13:
        return query(rng, analyst)
    if kind < 16:
        return edit(rng, places)
    if kind < 17:
        return query(rng, rng.choice([analysts, analysts + 1, 255]))
    if kind < 19:
        return bad_edit(rng, places)
    if kind < 21:
        return bad_head(rng, analyst)
    if kind < 23:
        return bad_predicate(rng, analyst)
    if kind < 24:
        good = rng.choice([query(rng, analyst), edit(rng, places)])
        return damaged(rng, good)
    if kind < 25:
        good = query(rng, analyst)
        return good[:rng.randrange(1, len(good))]
    return rng.choice([b"", bytes([rng.choice([0, 3, 255])]), b"\x03" + leaf(rng), rng.randbytes(rng.randrange(30))])


# Openings.

def rows(rng, places):
    made = bytearray(rng.randbytes(16 * places))
    mask = rng.choice([255, 255, 15, 3])
    if mask != 255:
        made = bytearray(made.translate(bytes(value & mask for value in range(256))))
    here = rng.choice([1, 4, 8])
    made[::16] = bytes(1 if rng.randrange(8) < here or here == 8 else 0 for _ in range(places))
    return made


def budgets(rng):
    analysts = rng.choice([1, 1, 2, 3, 5, 8, 32, rng.randrange(1, 33)])
    units = bytearray(analysts)
    for _ in range(rng.choice([0, 3, 10] + 6 * [20])):
        units[rng.randrange(analysts)] += 1
    return bytes(units)


def opening(rng, places, damage):
    roll, units = rows(rng, places), bytearray(budgets(rng))
    number = len(units)
    if "row" in damage:
        for _ in range(rng.choice([1, 1, 3])):
            roll[16 * rng.randrange(places)] = rng.choice([2, 3, 255])
    if "analysts" in damage:
        number = rng.choice([0, 33, 34, 255])
        units = bytearray(number)
    if "units" in damage and units:
        at = rng.randrange(len(units))
        units[at] = rng.choice([21, 255, min(255, 21 - sum(units[:at]))])
    return struct.pack("<H", places) + bytes(roll) + bytes([number]) + bytes(units)


DAMAGES = [
    {"row"}, {"analysts"}, {"units"}, {"cut"}, {"no place"}, {"more than served"}, {"more than any"},
    {"row", "units"}, {"row", "analysts"}, {"analysts"}, {"units"}, {"row"}, {"units", "cut"}, {"short"},
]


def framed(rng, lines):
    """The lines, each after its length; sometimes the last length is wrong, or half there."""
    made = b"".join(struct.pack("<H", len(line)) + line for line in lines)
    ending = rng.randrange(8)
    if ending == 0:
        return made + rng.randbytes(1)
    if ending == 1 and lines:
        more = rng.choice([1, 300, 65_535 - len(lines[-1])])
        return made[:-2 - len(lines[-1])] + struct.pack("<H", len(lines[-1]) + more) + lines[-1]
    if ending == 2:
        return made[:rng.randrange(len(made) + 1)]
    return made


# Command lines.

def options(rng, places):
    """Options that serve so many places."""
    usual = places <= 2_048
    chosen = [["--errors"]] * rng.choice([0, 1]) + [["--audit"]] * rng.choice([0, 1])
    if not usual or rng.randrange(3) == 0:
        chosen.append(["--places", str(rng.choice([places, min(places + 1, 32_768), 32_768]))])
    rng.shuffle(chosen)
    return sum(chosen, [])


ODD_WORDS = [
    [], ["--help"], ["--help", RUN, TAPE], [RUN], [RUN, TAPE, "more"], ["--places", RUN, TAPE],
    ["--places", "0", RUN, TAPE], ["--places", "x", RUN, TAPE], ["--places", "32769", RUN, TAPE],
    ["--places", "", RUN, TAPE], ["--places", "-1", RUN, TAPE], ["--places", "+2048", RUN, TAPE],
    ["--places", "002048", RUN, TAPE], ["--places", "18446744073709551617", RUN, TAPE], ["--places", " 9", RUN, TAPE],
    ["--places", "1", "--places", "32768", RUN, TAPE], ["--places", "32768", "--places", "1", RUN, TAPE],
    ["--places", "32768", "--places", "0", RUN, TAPE], ["--audit", "--audit", "--errors", "--errors", RUN, TAPE],
    ["--quiet", RUN, TAPE], [RUN, TAPE, "--errors"], ["--errors"], ["--errors", "--audit", RUN], ["-errors", RUN, TAPE],
    [RUN, "not-there"], ["not-there", TAPE], ["", TAPE], [RUN, ""], [".", TAPE], [RUN, "."], ["--places"],
    [RUN, "/dev/null"], ["/dev/null", TAPE], [TAPE, RUN], [RUN, RUN], ["--errors", "--places", "7", TAPE, TAPE], [""],
]


def number_of_places(rng, damage):
    if "no place" in damage:
        return 0
    if "more than any" in damage:
        return rng.choice([32_769, 40_000, 65_535])
    if "more than served" in damage:
        return rng.choice([2, 20, 2_049, 2_049, 2_049])
    return rng.choice([1, 2, 3, 5, 8, 20, 20, 100, 100, 255, 256, 257, 300, 1_000, 2_047, 2_048, 2_049, 3_000])


def make_run(number, seed=SEED):
    """The run of this number: each fifth has a damaged opening, another fifth an odd command line."""
    rng = random.Random(f"{seed} {number}")
    damage = DAMAGES[number // 5 % len(DAMAGES)] if number % 5 == 4 else set()
    places = 32_768 if number % 100 == 50 else number_of_places(rng, damage)
    start = opening(rng, places, damage)
    units = start[3 + 16 * places:][:32] or b"\0"
    lines = [any_line(rng, max(1, places), units) for _ in range(rng.randrange(5, 41))]
    file = start + framed(rng, lines)
    if "cut" in damage:
        file = start[:rng.choice([0, 1, 2, rng.randrange(len(start)), len(start) - 1])]
    if "short" in damage:
        file = start[:2] + start[2 + rng.choice([1, 15, 16]):] + framed(rng, lines)
    turns = sum(line[:1] == b"\x02" for line in lines)
    words = options(rng, min(places, 32_768)) + [RUN, TAPE]
    if "more than served" in damage:
        fewer = rng.choice([places - 1, rng.randrange(1, places)])
        words = [RUN, TAPE] if places == 2_049 else ["--audit", "--places", str(fewer), RUN, TAPE]
    if number % 5 == 2:
        words = ODD_WORDS[number // 5 % len(ODD_WORDS)]
    return Run(file, tape(rng, places, turns), words)


def main():
    folder = pathlib.Path(sys.argv[1]).resolve()
    number = int(sys.argv[2]) if len(sys.argv) > 2 else 200
    folder.mkdir(parents=True, exist_ok=True)
    for k in range(number):
        made = make_run(k)
        names = [folder / f"{k:04}.{ending}" for ending in ("run", "tape", "words")]
        names[0].write_bytes(made.run)
        names[1].write_bytes(made.tape)
        names[2].write_text("".join(word + "\n" for word in made.command(names[0], names[1])))


if __name__ == "__main__":
    main()
