"""Calls of the readers and writers of the three encodings."""

import material
from reference import encodings
from reference.parameters import SETS


def any_z(rng, s):
    """In range or not: readers and writers take both."""
    return material.within(rng, s, rng.choice((s.k - s.b, 32767)))


def read_secret_key(rng, s):
    return {"secret_key": encodings.write_secret_key(s, material.key(rng, s)), "out": material.signed(rng, s.N, 8)}


def write_secret_key(rng, s):
    return {"set": s.number, "key": material.key(rng, s), "out": rng.randbytes(encodings.secret_key_length(s))}


def read_public_key(rng, s):
    encoded = encodings.write_public_key(s, material.points(rng, s), material.public_evaluations(rng, s))
    return {"public_key": encoded, "points": material.unsigned(rng, s.t, 16), "evaluations": material.unsigned(rng, s.t, 32)}


def write_public_key(rng, s):
    return {"set": s.number, "points": material.points(rng, s), "evaluations": material.public_evaluations(rng, s),
            "out": rng.randbytes(encodings.public_key_length(s))}


def read_signature(rng, s):
    encoded = encodings.write_entries(s, material.entries(rng, s), any_z(rng, s))
    return {"signature": encoded, "entries": material.unsigned(rng, s.b, 16), "z": material.signed(rng, s.N, 16)}


def write_signature(rng, s):
    return {"set": s.number, "entries": material.entries(rng, s), "z": any_z(rng, s),
            "out": rng.randbytes(encodings.signature_length(s))}


GOOD = {"read_secret_key": read_secret_key, "write_secret_key": write_secret_key,
        "read_public_key": read_public_key, "write_public_key": write_public_key,
        "read_signature": read_signature, "write_signature": write_signature}


def all_else_of_another_set(good):
    """An encoding of one set, or its number, with lists and buffers that are right for another."""
    def make(rng, s):
        other = rng.choice([each for each in SETS if each != s])
        mine, others = good(rng, s), good(rng, other)
        first = next(iter(mine))
        return {**others, first: mine[first]}
    return make


SPECIAL = {entry: {"all else of another set": all_else_of_another_set(good)} for entry, good in GOOD.items()}
