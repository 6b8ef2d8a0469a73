"""Cases of sign, under a rule."""

from functools import lru_cache, partial
from random import Random

import material
from damages import put
from reference import encodings, signing

from .case import case
from .common import (LONGEST, NO_RULES, NO_SETS, TOO_LONG, blank, exponent_N, secret_key, signer, wrong_counts, wrong_keys, wrong_lengths,
                     wrong_point_counts, wrong_point_lists, wrong_rooms, wrong_sets)


def outside(s, values):
    """The indices of those outside -(k-b)..k-b."""
    return [i for i, value in enumerate(values) if abs(value) > s.k - s.b]


def small_mask(rng, s):
    """Short to write, and passes whatever key and challenge are."""
    return material.within(rng, s, min(9, s.k - 2 * s.b))


def mask_where(rng, s, rule, wanted, places=None):
    """A mask for the signer, by trying: small, but at some places about k - b or -(k - b), so that key and challenge decide, and z as wanted(y, z)."""
    me = signer(s)
    while True:
        y = small_mask(rng, s)
        for i in places or rng.sample(range(s.N), 2):
            y[i] = rng.choice((-1, 1)) * (s.k - s.b + rng.randint(-2, 2))
        if wanted(y, material.unranged_signature(s, me.f, me.at, y, me.text, rule)[1]):
            return y


def failing(rng, s, rule):
    return mask_where(rng, s, rule, lambda y, z: outside(s, z))


def passing_alone(rng, s, rule):
    """A mask that passes under this rule and not under the other."""
    me, other = signer(s), material.other_rule(rule)
    return mask_where(rng, s, rule, lambda y, z: not outside(s, z) and signing.try_mask(s, me.f, me.at, y, me.text, other) is None)


@lru_cache(maxsize=None)
def three_then_one(s, rule):
    """Three masks that fail, each in a way of its own, and one that passes."""
    top, by = s.k - s.b, partial(mask_where, Random(f"vectors: masks passed over in set {s.number} under rule {rule}"), s, rule)
    return (by(lambda y, z: outside(s, z) == [0] and z[0] == top + 1, [0]),
            by(lambda y, z: outside(s, z) == [s.N - 1] and z[-1] == -top - 1, [s.N - 1]),
            by(lambda y, z: outside(s, z) and not outside(s, y)),
            by(lambda y, z: outside(s, y) and max(map(abs, z)) == top))


def sign_cases(s, rule):
    of, me, rng = partial(case, "sign", s, rule), signer(s), Random(f"vectors: sign in set {s.number} under rule {rule}")
    good = {"secret_key": secret_key(s, me), "points": me.at, "masks": [], "message": me.text, "rule": rule}
    for what, comment, answer, masks in (*signed_masks(rng, s, rule), *passed_over_masks(rng, s, rule)):
        yield of(what, comment, answer, {**good, "masks": [value for y in masks for value in y]})
    good.update({"secret_key": secret_key(s, blank(s)), "masks": blank(s).y})
    yield of("zeros", "Key and mask are zeros, so z is, and the challenge is that of a commitment of zeros; what is refused below is this call with "
             "something wrong.", 256, good)
    yield of("empty message", "The first digest is of the commitment bytes, here zeros, and SHA-512 of nothing.", 256, {**good, "message": b""})
    yield of("longest message", "65,535 bytes are allowed.", 256, {**good, "message": LONGEST})
    for length in (111, 112, 127, 128, 129) if s.number == 0 else ():
        yield of(f"message of {length} bytes", "About the lengths at which SHA-512 has a block more.", 256, {**good, "message": rng.randbytes(length)})
    yield from sign_lengths(s, of, good)
    yield from sign_refusals(s, of, good)
    yield from sign_orders(s, of, good)


def signed_masks(rng, s, rule):
    """What the masks are, why, the answer, and they: here and below."""
    other = material.other_rule(rule)
    yield ("mask passes", "Its commitment is evaluate's case 'mask', its pool is draw's of this rule, and the signature gets check's 'yes'.", 256,
           [signer(s).y])
    yield ("passes under this rule alone", "Under the other rule the mask would be passed over: with 9 the commitment was hashed by that one.", 256,
           [passing_alone(rng, s, rule)])
    yield ("passes under the other rule alone", "Under this rule the mask is passed over: with a signature the commitment was hashed by the other.", 9,
           [passing_alone(rng, s, other)])
    yield "none of two passes", "Both masks are within k, and z is not in range.", 9, [failing(rng, s, rule), failing(rng, s, rule)]
    yield "no mask", "An empty list of masks is allowed, and none of them passes.", 9, []


def passed_over_masks(rng, s, rule):
    yield ("three passed over", "z has k-b+1 at index 0; then -(k-b)-1 at index N-1; then it is out of range where the mask is not; the fourth mask "
           "is out of range itself, but z goes just up to an end of it, so that it signs, though the fifth would too.", 259,
           [*three_then_one(s, rule), small_mask(rng, s)])
    yield "seven passed over", "The last of eight masks signs.", 263, [*(failing(rng, s, rule) for _ in range(7)), small_mask(rng, s)]


def sign_lengths(s, of, good):
    """Refusals with 1."""
    yield of("message too long", "65,536 bytes are one too many.", 1, {**good, "message": TOO_LONG})
    for what, comment, data in wrong_lengths("secret key", good["secret_key"]):
        yield of(what, comment, 1, {**good, "secret_key": data})
    yield from wrong_point_counts(s, of, good)
    yield from wrong_counts(of, good, "masks", "a mask number", s.N)
    yield of("nine masks", "There are at most eight.", 1, {**good, "masks": [0] * (9 * s.N)})
    yield from wrong_rooms(of, good, "signature", encodings.signature_length(s))


def sign_refusals(s, of, good):
    """Each other number, with nothing else wrong."""
    zeros, late = [0] * s.N, "Masks are within k: the first passes, but all are tested before one is tried."
    yield from wrong_sets(of, good)
    for number in NO_RULES:
        yield of(f"given rule {number}", "The rules are 1 and 2.", 18, {**good, "rule": number})
    yield from wrong_point_lists(s, of, good)
    for what, comment, data in wrong_keys(good["secret_key"]):
        yield of(what, comment, 5, {**good, "secret_key": data})
    if s.k < 32767:
        yield of("mask coefficient k+1", late, 6, {**good, "masks": zeros + put(zeros, s.N - 1, s.k + 1)})
    yield of("mask coefficient -k-1", late, 6, {**good, "masks": zeros + put(zeros, s.N - 1, -s.k - 1)})


def sign_orders(s, of, good):
    """Two things are wrong, and what is tested first is the answer."""
    here, no_set, none, no_rule = bytes([s.number]), bytes(NO_SETS[:1]), {"points": [], "masks": []}, {**good, "rule": 3}
    wrong_key, wrong_mask = put(good["secret_key"], 1, 2), put([0] * s.N, 0, -s.k - 1)
    yield of("message before 2", "A message of 65,536 bytes, and set 5.", 1, {**good, **none, "secret_key": no_set, "message": TOO_LONG})
    yield of("2 before lengths", "A secret key that is its set byte 5 alone, and no points.", 2, {**good, **none, "secret_key": no_set})
    yield of("2 before 18", "A secret key of set 5, and rule 3.", 2, {**no_rule, **none, "secret_key": no_set})
    yield of("secret key before 18", "A secret key that is its set byte alone, and rule 3.", 1, {**no_rule, "secret_key": here})
    yield of("points before 18", "No points, and rule 3.", 1, {**no_rule, "points": []})
    yield of("masks before 18", "A number of a mask too few, and rule 3.", 1, {**no_rule, "masks": [0] * (s.N - 1)})
    yield of("room before 18", "No room for the signature, and rule 3.", 1, no_rule, signature_length=encodings.signature_length(s) - 1)
    yield of("18 before 4", "Rule 3, and exponent N.", 18, {**no_rule, "points": exponent_N(s)})
    yield of("4 before 5", "Exponent N, and key byte 02.", 4, {**good, "points": exponent_N(s), "secret_key": wrong_key})
    yield of("5 before 6", "Key byte 02, and a mask coefficient of -k-1.", 5, {**good, "secret_key": wrong_key, "masks": wrong_mask})
    yield of("6 before 9", "The only mask has a coefficient of -k-1, and with it z is out of range.", 6, {**good, "masks": wrong_mask})
