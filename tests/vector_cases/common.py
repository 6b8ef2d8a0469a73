"""What the cases of a set share: one signer, what can be wrong with what a call takes, and the refused calls that entries have in common."""

from collections import namedtuple
from functools import lru_cache
from random import Random

import material
from damages import put
from reference import encodings, library

NO_SETS, NO_RULES = (5, 255), (0, 3, 255)
LONGEST, TOO_LONG = b"a" * library.MOST_MESSAGE_BYTES, bytes(library.MOST_MESSAGE_BYTES + 1)

Signer = namedtuple("Signer", "f at y text")  # key, points, mask, message


@lru_cache(maxsize=None)
def signer(s):
    """One for each set, so that the evaluations, pool, challenge, signature and verdict of one signing are found in the files, step by step."""
    rng, f = Random(f"vectors: signer of set {s.number}"), []
    while set(f) != {-1, 0, 1}:
        f = material.dense_key(rng, s)
    return Signer(f, material.points_with_ends(rng, s), material.passing_mask(rng, s), rng.randbytes(64))


def blank(s):
    """The same with a key and a mask of zeros, which sign and are short to write: what refused calls have where nothing is wrong."""
    return signer(s)._replace(f=[0] * s.N, y=[0] * s.N)


def secret_key(s, who):
    return encodings.write_secret_key(s, who.f)


def public_key(s, who):
    return material.public_key(s, who.f, who.at)


def signature(s, who, rule):
    """Of the mask, which passes whatever the challenge."""
    return material.passing_signature(s, who.f, who.at, who.y, who.text, rule)


# ── What can be wrong: its name, why, and the thing ─────────────────────────────────────────────

def wrong_points(s, at):
    yield "exponent 0", "Exponents are in 1..N-1: a test for below N alone lets 0 in.", [0] + at[1:]
    yield "exponent N", "Exponents are in 1..N-1: a test for at most N lets N in.", at[:-1] + [s.N]
    yield "equal exponents", "Exponents are strictly increasing: a test for not decreasing lets equal ones in.", [at[0], at[0]] + at[2:]
    yield "decreasing exponents", "Exponents are strictly increasing: a test that none is there twice is not enough.", [at[1], at[0]] + at[2:]


def exponent_N(s):
    return signer(s).at[:-1] + [s.N]


def short_and_wrong(s):
    """A point too few, and exponent N."""
    return exponent_N(s)[1:]


def all_but_first(s):
    """One point more than t, in order."""
    return list(range(s.N - s.t - 1, s.N))


def wrong_keys(key):
    yield "key byte 02", "A key byte is 00, 01, or FF for -1.", put(key, 1, 0x02)
    yield "key byte FE", "A key byte is 00, 01, or FF for -1: a test for anything negative lets FE in.", put(key, len(key) - 1, 0xFE)


def wrong_lengths(what, data):
    """Of an encoding."""
    yield f"{what} empty", "An empty encoding has no set byte: it is 1, and not 2.", b""
    yield f"{what} short", f"It has {len(data)} bytes in this set.", data[:-1]
    yield f"{what} long", f"It has {len(data)} bytes in this set: with one more, unread, there would be a second encoding.", data + data[-1:]


def wrong_evaluations(s):
    """In three bytes."""
    yield "evaluation q", "Evaluations are below q: q would be a second encoding of 0.", s.q
    yield "evaluation 2^24-1", "Evaluations are below q: the largest of three bytes is not.", (1 << 24) - 1


def wrong_entries(s, entries):
    yield "index N", "Indices are below N.", entries[:-1] + [s.N]
    yield "equal indices", "Indices are strictly increasing: here is one twice, with both signs.", [entries[0], entries[0] ^ 0x8000] + entries[2:]
    yield "decreasing indices", "Indices are strictly increasing: another order would be a second encoding.", [entries[1], entries[0]] + entries[2:]


def with_points(s, key, points):
    """A public key with other exponents."""
    return encodings.write_public_key(s, points, encodings.read_public_key(s, key[1:])[1])


def with_evaluation(s, key, at, value):
    points, values = encodings.read_public_key(s, key[1:])
    return encodings.write_public_key(s, points, put(values, at, value))


def with_index_N(s, data):
    """A signature with N for its last index."""
    entries, z = encodings.read_signature(s, data[1:])
    return encodings.write_entries(s, entries[:-1] + [s.N], z)


# ── Refused calls that entries have in common: `of` makes a case of a good call ─────────────────

def wrong_rooms(of, good, name, right):
    for size, room in (("short", right - 1), ("long", right + 1)):
        yield of(f"room for {name} one {size}", f"The result buffer has {right} elements in this set.", 1, good, **{f"{name}_length": room})


def wrong_counts(of, good, name, one, right):
    """A list of zeros, one too short and one too long."""
    for amount, count in (("few", right - 1), ("many", right + 1)):
        each = ", of each mask" if name == "masks" else ""
        yield of(f"{one} too {amount}", f"There are {right} in this set{each}.", 1, {**good, name: [0] * count})


def wrong_point_counts(s, of, good):
    yield of("a point too few", f"There are {s.t} in this set.", 1, {**good, "points": good["points"][:-1]})
    yield of("a point too many", f"There are {s.t} in this set, also where one more would be in order.", 1, {**good, "points": all_but_first(s)})


def wrong_sets(of, good):
    """The set is the first argument, or the first byte of it."""
    name, value = next(iter(good.items()))
    for number in NO_SETS:
        yield of(f"set {number}", "There are sets 0 to 4.", 2, {**good, name: number if name == "set" else put(value, 0, number)})


def wrong_point_lists(s, of, good):
    for what, comment, points in wrong_points(s, good["points"]):
        yield of(what, comment, 4, {**good, "points": points})
