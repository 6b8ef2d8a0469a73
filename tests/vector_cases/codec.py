"""Cases of the readers and writers of the encodings."""

from functools import partial
from random import Random

import material
from damages import put
from reference import encodings
from reference.challenge import LOW_BYTE_RULE
from reference.test_document import CHALLENGE, POINTS

from .case import case
from .common import (NO_SETS, blank, exponent_N, public_key, secret_key, short_and_wrong, signature, signer, with_evaluation, with_index_N,
                     with_points, wrong_counts, wrong_entries, wrong_evaluations, wrong_keys, wrong_lengths, wrong_point_counts, wrong_point_lists,
                     wrong_points, wrong_rooms, wrong_sets)


def encoding_cases(s):
    for cases in (secret_key_reader, secret_key_writer, public_key_reader, public_key_writer, signature_reader, signature_writer):
        yield from cases(s)


def secret_key_reader(s):
    of, key = partial(case, "read_secret_key", s, None), secret_key(s, blank(s))
    good = {"secret_key": key}
    yield of("key", "The secret key of sign's cases.", 0, {"secret_key": secret_key(s, signer(s))})
    for what, comment, data in wrong_lengths("secret key", key):
        yield of(what, comment, 1, {"secret_key": data})
    yield from wrong_rooms(of, good, "coefficients", s.N)
    yield from wrong_sets(of, good)
    for what, comment, data in wrong_keys(key):
        yield of(what, comment, 5, {"secret_key": data})
    yield of("2 before lengths", "It is the set byte 5 alone.", 2, {"secret_key": bytes(NO_SETS[:1])})
    yield of("secret key before 5", "A byte too many, and key byte 02.", 1, {"secret_key": put(key, 1, 2) + b"\0"})
    yield of("room before 5", "No room for the coefficients, and key byte 02.", 1, {"secret_key": put(key, 1, 2)}, coefficients_length=s.N - 1)


def secret_key_writer(s):
    of, good = partial(case, "write_secret_key", s, None), {"set": s.number, "coefficients": [0] * s.N}
    yield of("key", "The key of sign's cases.", 0, {**good, "coefficients": signer(s).f})
    yield from wrong_counts(of, good, "coefficients", "a coefficient", s.N)
    yield from wrong_rooms(of, good, "secret_key", encodings.secret_key_length(s))
    yield from wrong_sets(of, good)
    for value in (2, -2, 127, -128):
        yield of(f"coefficient {value}", "A key has -1, 0 and 1.", 5, {**good, "coefficients": put(good["coefficients"], s.N - 1, value)})
    yield of("2 before lengths", "Set 5, and no coefficients.", 2, {"set": NO_SETS[0], "coefficients": []})
    wrong = {**good, "coefficients": put(good["coefficients"], 0, 2)}
    yield of("coefficients before 5", "A coefficient too many, and one is 2.", 1, {**good, "coefficients": wrong["coefficients"] + [0]})
    yield of("room before 5", "No room for the secret key, and a coefficient is 2.", 1, wrong, secret_key_length=s.N)


def any_evaluations(s):
    """Below q, 0 and q-1 among them."""
    return [0, s.q - 1] + material.public_evaluations(Random(f"vectors: evaluations of set {s.number}"), s)[2:]


def public_key_reader(s):
    of, at = partial(case, "read_public_key", s, None), signer(s).at
    key = public_key(s, blank(s))
    good = {"public_key": key}
    if s.number == 0:
        yield of("worked key", "Document 01's key at 1 and 2.", 0, {"public_key": encodings.write_public_key(s, POINTS, [7, 30])})
    yield of("key", "Any evaluations below q, 0 and q-1 among them.", 0, {"public_key": encodings.write_public_key(s, at, any_evaluations(s))})
    for what, comment, data in wrong_lengths("public key", key):
        yield of(what, comment, 1, {"public_key": data})
    yield from (*wrong_rooms(of, good, "points", s.t), *wrong_rooms(of, good, "evaluations", s.t), *wrong_sets(of, good))
    for what, comment, points in wrong_points(s, at):
        yield of(what, comment, 4, {"public_key": with_points(s, key, points)})
    for what, comment, value in wrong_evaluations(s):
        yield of(what, comment, 7, {"public_key": with_evaluation(s, key, s.t - 1, value)})
    wrong_point = with_points(s, key, exponent_N(s))
    both = "Points and evaluations have as much room as each other, but not t."
    yield of("both rooms one short", both, 1, good, points_length=s.t - 1, evaluations_length=s.t - 1)
    yield of("2 before lengths", "It is the set byte 5 alone.", 2, {"public_key": bytes(NO_SETS[:1])})
    yield of("public key before 4", "A byte too many, and exponent N.", 1, {"public_key": wrong_point + b"\0"})
    for name in ("points", "evaluations"):
        yield of(f"room for {name} before 4", f"No room for the {name}, and exponent N.", 1, {"public_key": wrong_point}, **{f"{name}_length": s.t - 1})
    yield of("4 before 7", "Exponent N, and evaluation q.", 4, {"public_key": with_evaluation(s, wrong_point, 0, s.q)})


def public_key_writer(s):
    of, at, right = partial(case, "write_public_key", s, None), signer(s).at, encodings.public_key_length(s)
    good = {"set": s.number, "points": at, "evaluations": [0] * s.t}
    if s.number == 0:
        yield of("worked key", "Document 01's key at 1 and 2.", 0, {"set": 0, "points": POINTS, "evaluations": [7, 30]})
    yield of("key", "Any evaluations below q, 0 and q-1 among them.", 0, {**good, "evaluations": any_evaluations(s)})
    yield from wrong_point_counts(s, of, good)
    yield from wrong_counts(of, good, "evaluations", "an evaluation", s.t)
    yield from (*wrong_rooms(of, good, "public_key", right), *wrong_sets(of, good), *wrong_point_lists(s, of, good))
    for what, value in (("q", s.q), ("2^24", 1 << 24), ("2^32-1", (1 << 32) - 1)):
        evaluations = put(good["evaluations"], s.t - 1, value)
        yield of(f"evaluation {what}", "Evaluations are below q, and not their low three bytes alone.", 7, {**good, "evaluations": evaluations})
    wrong = {**good, "points": exponent_N(s)}
    yield of("2 before lengths", "Set 5, no points and no evaluations.", 2, {"set": NO_SETS[0], "points": [], "evaluations": []})
    few = {**good, "points": at[:-1], "evaluations": good["evaluations"][:-1]}
    yield of("a point and an evaluation too few", "Points and evaluations are as many as each other, but not t.", 1, few)
    yield of("points before 4", "A point too few, and exponent N.", 1, {**good, "points": short_and_wrong(s)})
    yield of("evaluations before 4", "An evaluation too few, and exponent N.", 1, {**wrong, "evaluations": few["evaluations"]})
    yield of("room before 4", "No room for the public key, and exponent N.", 1, wrong, public_key_length=right - 1)
    yield of("4 before 7", "Exponent N, and evaluation q.", 4, {**wrong, "evaluations": put(good["evaluations"], 0, s.q)})


def any_entries(s):
    """The first index and the last, with -1, and others."""
    rng = Random(f"vectors: entries of set {s.number}")
    inner = sorted(rng.sample(range(1, s.N - 1), s.b - 2))
    return [0x8000] + [i | rng.choice((0, 0x8000)) for i in inner] + [s.N - 1 | 0x8000]


def any_z(s):
    """In range and out of it: both ends of 16 bits, and what is just outside."""
    top = s.k - s.b
    return [-32768, 32767, top + 1, -top - 1] + material.within(Random(f"vectors: z of set {s.number}"), s, top)[4:]


Z_OUT_OF_RANGE = "A z out of range is accepted, for the check to judge; the first index and the last are there, with -1."


def signature_reader(s):
    of, signed = partial(case, "read_signature", s, None), signature(s, blank(s), LOW_BYTE_RULE)
    good = {"signature": signed}
    if s.number == 0:
        yield of("worked signature", "Document 01: the first case, encoded.", 0, {"signature": bytes.fromhex("00 0002 8003 0004 0003 FFFC 0000 0001")})
    yield of("signature", "The signature of sign's case 'mask passes' under rule 1.", 0, {"signature": signature(s, signer(s), LOW_BYTE_RULE)})
    yield of("z out of range", Z_OUT_OF_RANGE, 0, {"signature": encodings.write_entries(s, any_entries(s), any_z(s))})
    for what, comment, data in wrong_lengths("signature", signed):
        yield of(what, comment, 1, {"signature": data})
    yield from (*wrong_rooms(of, good, "entries", s.b), *wrong_rooms(of, good, "z", s.N), *wrong_sets(of, good))
    entries, z = encodings.read_signature(s, signed[1:])
    for what, comment, wrong in wrong_entries(s, entries):
        yield of(what, comment, 12, {"signature": encodings.write_entries(s, wrong, z)})
    yield of("2 before lengths", "It is the set byte 5 alone.", 2, {"signature": bytes(NO_SETS[:1])})
    wrong = {"signature": with_index_N(s, signed)}
    yield of("signature before 12", "A byte too many, and index N.", 1, {"signature": wrong["signature"] + b"\0"})
    yield of("room for entries before 12", "No room for the entries, and index N.", 1, wrong, entries_length=s.b - 1)
    yield of("room for z before 12", "No room for z, and index N.", 1, wrong, z_length=s.N - 1)


def signature_writer(s):
    of, right = partial(case, "write_signature", s, None), encodings.signature_length(s)
    good = {"set": s.number, "entries": any_entries(s), "z": [0] * s.N}
    if s.number == 0:
        worked = {"set": 0, "entries": encodings.entries_of(CHALLENGE), "z": [4, 3, -4, 0, 1]}
        yield of("worked signature", "Document 01: the first case, encoded.", 0, worked)
    entries, z = encodings.read_signature(s, signature(s, signer(s), LOW_BYTE_RULE)[1:])
    yield of("signature", "The signature of sign's case 'mask passes' under rule 1.", 0, {**good, "entries": entries, "z": z})
    yield of("z out of range", Z_OUT_OF_RANGE, 0, {**good, "z": any_z(s)})
    for amount, count in (("few", s.b - 1), ("many", s.b + 1)):
        yield of(f"an entry too {amount}", f"There are {s.b} in this set.", 1, {**good, "entries": list(range(count))})
    yield from wrong_counts(of, good, "z", "a coefficient of z", s.N)
    yield from (*wrong_rooms(of, good, "signature", right), *wrong_sets(of, good))
    for what, comment, wrong in wrong_entries(s, good["entries"]):
        yield of(what, comment, 12, {**good, "entries": wrong})
    yield of("2 before lengths", "Set 5, no entries and no z.", 2, {"set": NO_SETS[0], "entries": [], "z": []})
    wrong = {**good, "entries": good["entries"][:-1] + [s.N]}
    yield of("entries before 12", "An entry too few, and index N.", 1, {**good, "entries": wrong["entries"][1:]})
    yield of("z before 12", "A coefficient of z too few, and index N.", 1, {**wrong, "z": [0] * (s.N - 1)})
    yield of("room before 12", "No room for the signature, and index N.", 1, wrong, signature_length=right - 1)
