"""Cases of check, under a rule."""

from functools import partial
from random import Random

import material
from damages import put
from reference import encodings, library, signing
from reference.challenge import draw, pool_of
from reference.polynomials import evaluation_residues

from .case import case
from .common import (LONGEST, NO_RULES, NO_SETS, TOO_LONG, blank, exponent_N, public_key, signature, signer, with_evaluation, with_index_N,
                     with_points, wrong_entries, wrong_evaluations, wrong_lengths, wrong_points)
from .sign import outside


def check_call(s, who, rule):
    return {"public_key": public_key(s, who), "message": who.text, "signature": signature(s, who, rule), "rule": rule}


def check_cases(s, rule):
    of, good, zeros = partial(case, "check", s, rule), check_call(s, signer(s), rule), check_call(s, blank(s), rule)
    yield of("yes", "The signature of sign's case 'mask passes', and the key of public_key's case 'key'.", 256, good)
    yield from one_bit_off(s, of, good)
    yield of("made under the other rule", "The signature gets a yes under the other rule: with one here the commitment was hashed by that.", 0,
             {**good, "signature": signature(s, signer(s), material.other_rule(rule))})
    yield from ends_of_the_range(s, rule, of)
    yield of("yes, zeros", "The signature of sign's case 'zeros'; the calls below that are refused are this one with something wrong.", 256, zeros)
    for what, comment, text in (("empty", "No byte of a message is hashed.", b""), ("longest", "65,535 bytes are allowed.", LONGEST)):
        yield of(f"yes, {what} message", comment, 256, check_call(s, blank(s)._replace(text=text), rule))
    yield from another_challenge(s, of, zeros)
    yield from check_lengths(of, zeros)
    yield from check_refusals(s, of, zeros)
    yield from check_orders(s, of, zeros)


def bits(first, end):
    return [(at, 1 << bit) for at in range(first, end) for bit in range(8)]


def damaged(rng, s, call, name, places):
    """The call with one of these bits of an argument changed so that the answer is no: nothing is refused, z stays in range."""
    rng.shuffle(places)
    for at, bit in places:
        changed = {**call, name: put(call[name], at, call[name][at] ^ bit)}
        z = encodings.read_signature(s, changed["signature"][1:])[1]
        if library.check(*changed.values()) == library.NO and signing.in_range(s, z):
            return changed
    raise AssertionError(f"in set {s.number} no such bit of {name} gives a no: choose another signer")


def one_bit_off(s, of, good):
    rng, signs, indices = bits_of_entries(s, good["rule"])
    entries_end, signed_end, points_end, key_end = 1 + 2 * s.b, len(good["signature"]), 1 + 2 * s.t, len(good["public_key"])
    for what, comment, name, places in (
            ("a challenge index", "They stay increasing and below N: the challenge goes into the commitment.", "signature", indices),
            ("a challenge sign", "The challenge goes into the commitment with its signs.", "signature", signs),
            ("a coefficient of z", "z stays in range: all of it goes into the commitment.", "signature", bits(entries_end, signed_end)),
            ("an evaluation", "It stays below q: the commitment is z(x) - public(x) * c(x) at every point.", "public_key", bits(points_end, key_end)),
            ("an exponent", "They stay increasing and in 1..N-1: z and the challenge are evaluated at these.", "public_key", bits(1, points_end)),
            ("the message", "Every bit of it is hashed.", "message", bits(0, len(good["message"])))):
        yield of(f"no, one bit of {what}", comment, 0, damaged(rng, s, good, name, places))


def bits_of_entries(s, rule):
    """A generator, and the bits of the challenge's signs and of its indices in a signature."""
    signs = [(at, 0x80) for at in range(1, 1 + 2 * s.b, 2)]
    return Random(f"vectors: bits in set {s.number} under rule {rule}"), signs, [place for place in bits(1, 1 + 2 * s.b) if place not in signs]


def another_challenge(s, of, zeros):
    """With a key of zeros what is drawn does not depend on the challenge that is given."""
    rng, signs, indices = bits_of_entries(s, zeros["rule"])
    why = "The evaluations are zeros, so that the challenge does not go into the commitment, and the one that is drawn has another"
    for what, places in (("sign", signs), ("index", indices)):
        yield of(f"no, another {what} drawn", f"{why} {what} at one entry: with a yes they are not compared whole.", 0,
                 damaged(rng, s, zeros, "signature", places))


def fitting(rng, s, rule, value):
    """A check of the signer's message: one coefficient of z has this value, all others are in range, and the challenge is the one that is drawn."""
    me = signer(s)
    while True:
        f, y, i = material.sparse_key(rng, s), material.passing_mask(rng, s), rng.randrange(s.N)
        y[i] = value
        c, z = material.unranged_signature(s, f, me.at, y, me.text, rule)
        if any(f) and z[i] == value and set(outside(s, z)) <= {i}:
            pairs = zip(evaluation_residues(s, z, me.at), evaluation_residues(s, f, me.at), evaluation_residues(s, c, me.at))
            assert draw(s, pool_of([(of_z - public * of_c) % s.q for of_z, public, of_c in pairs], me.text, rule)) == c
            return {"public_key": material.public_key(s, f, me.at), "message": me.text, "signature": encodings.write_signature(s, c, z), "rule": rule}


def ends_of_the_range(s, rule, of):
    rng, top = Random(f"vectors: ends of z in set {s.number} under rule {rule}"), s.k - s.b
    for what, value, answer, comment in (
            ("z at k-b", top, 256, "k-b is in range."), ("z at -(k-b)", -top, 256, "-(k-b) is in range."),
            ("z at k-b+1", top + 1, 0, "with a yes it is not tested, or up to another bound."),
            ("z at -(k-b)-1", -top - 1, 0, "with a yes its lower end is not tested, or another."),
            ("z at -32768", -32768, 0, "with a yes absolute values are taken in 16 bits, where that of -32768 is negative.")):
        yield of(what, f"The challenge is the one that is drawn, so that the range of z alone decides: {comment}", answer, fitting(rng, s, rule, value))


def check_lengths(of, good):
    """Refusals with 1."""
    yield of("message too long", "65,536 bytes are one too many.", 1, {**good, "message": TOO_LONG})
    for name in ("public_key", "signature"):
        for what, comment, data in wrong_lengths(name.replace("_", " "), good[name]):
            yield of(what, comment, 1, {**good, name: data})


def check_refusals(s, of, good):
    """Each other number, with nothing else wrong."""
    key, signed = good["public_key"], good["signature"]
    for number in NO_SETS:
        differ = {**good, "signature": put(signed, 0, number)}
        yield of(f"set {number}", "There are sets 0 to 4, also where both encodings name the same.", 2, {**differ, "public_key": put(key, 0, number)})
        yield of(f"signature of set {number}", "The sets differ.", 2, differ)
    for name in ("public_key", "signature"):
        yield of(f"{name.replace('_', ' ')} of another set", "The sets differ.", 2, {**good, name: put(good[name], 0, (s.number + 1) % 5)})
    for number in NO_RULES:
        yield of(f"given rule {number}", "The rules are 1 and 2.", 18, {**good, "rule": number})
    for what, comment, points in wrong_points(s, signer(s).at):
        yield of(what, comment, 4, {**good, "public_key": with_points(s, key, points)})
    for what, comment, value in wrong_evaluations(s):
        yield of(what, comment, 7, {**good, "public_key": with_evaluation(s, key, s.t - 1, value)})
    entries, z = encodings.read_signature(s, signed[1:])
    for what, comment, wrong in wrong_entries(s, entries):
        yield of(what, comment, 12, {**good, "signature": encodings.write_entries(s, wrong, z)})


def check_orders(s, of, good):
    """Two things are wrong, and what is tested first is the answer."""
    key, no_set, no_rule = good["public_key"], bytes(NO_SETS[:1]), {**good, "rule": 3}
    here, there = bytes([s.number]), bytes([(s.number + 1) % 5])
    wrong_point, wrong_evaluation = with_points(s, key, exponent_N(s)), with_evaluation(s, key, 0, s.q)
    wrong_index = {**good, "signature": with_index_N(s, good["signature"])}
    out_of_range = wrong_index["signature"][:-2] + (s.k - s.b + 1).to_bytes(2, "big")
    yield of("message before 2", "A message of 65,536 bytes, and set 5.", 1, {**good, "message": TOO_LONG, "public_key": no_set, "signature": no_set})
    yield of("empty key before 2", "An empty public key, and a signature of set 5.", 1, {**good, "public_key": b"", "signature": no_set})
    yield of("empty signature before 2", "A public key of set 5, and an empty signature.", 1, {**good, "public_key": no_set, "signature": b""})
    yield of("2 before lengths", "Both encodings are a set byte alone, and the sets differ.", 2, {**good, "public_key": here, "signature": there})
    yield of("2 before 18", "Both encodings are of set 5, and rule 3 is given.", 2, {**no_rule, "public_key": no_set, "signature": no_set})
    yield of("public key before 18", "The public key is its set byte alone, and rule 3 is given.", 1, {**no_rule, "public_key": here})
    yield of("signature before 18", "The signature is its set byte alone, and rule 3 is given.", 1, {**no_rule, "signature": here})
    yield of("18 before 4", "Rule 3 is given, and the public key has exponent N.", 18, {**no_rule, "public_key": wrong_point})
    yield of("4 before 7", "The public key has exponent N and evaluation q.", 4, {**good, "public_key": with_evaluation(s, wrong_point, 0, s.q)})
    yield of("7 before 12", "The public key has evaluation q, and the signature index N.", 7, {**wrong_index, "public_key": wrong_evaluation})
    yield of("12 before a z out of range", "The signature has index N, and z at k-b+1, which alone is a no.", 12, {**good, "signature": out_of_range})
