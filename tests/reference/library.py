"""The library's entries: tests in document 01's order, answers as the C entries give them.

Points, coefficients, masks and challenge entries are lists of numbers, encodings and messages are
bytes. Result buffers come last, ahead of the rule alone, lists or bytearrays written in place: one, but none for `check`
and two for the readers of public keys and signatures. A refused call leaves them.
"""

from functools import wraps

from . import encodings, signing
from .challenge import RULES, draw as draw_challenge, is_pool_length
from .parameters import SETS
from .polynomials import are_evaluations, are_points, evaluation_residues, evaluations, is_key, is_mask
from .refusals import (CHALLENGE_INDEX, EVALUATION, EXPONENTS, KEY_VALUE, LENGTH, MASK_COEFFICIENT,
                       NO_MASK_PASSES, POOL_SPENT, RULE, Refused, SET, refuse_unless)

MOST_MESSAGE_BYTES = 65535
MOST_MASKS = 8
YES, NO, DONE = 256, 0, 0
SIGNED = 256  # plus the number passed over


def answers_refusals(entry):
    @wraps(entry)
    def answer(*arguments):
        try:
            return entry(*arguments)
        except Refused as refusal:
            return refusal.number
    return answer


def set_of(number):
    refuse_unless(number < len(SETS), SET)
    return SETS[number]


def set_of_encoding(data):
    refuse_unless(len(data) > 0, LENGTH)
    return set_of(data[0])


@answers_refusals
def evaluate(set_number, coefficients, points, out):
    s = set_of(set_number)
    refuse_unless(len(coefficients) == s.N and len(points) == len(out) == s.t, LENGTH)
    refuse_unless(are_points(s, points), EXPONENTS)
    out[:] = evaluations(s, coefficients, points)
    return DONE


@answers_refusals
def evaluate_all(set_number, coefficients, out):
    """At the exponents 1..N-1, in that order, each by the plain evaluation."""
    s = set_of(set_number)
    refuse_unless(len(coefficients) == s.N and len(out) == s.N - 1, LENGTH)
    out[:] = evaluations(s, coefficients, range(1, s.N))
    return DONE


@answers_refusals
def draw(set_number, pool, out):
    s = set_of(set_number)
    refuse_unless(is_pool_length(len(pool)) and len(out) == s.N, LENGTH)
    challenge = draw_challenge(s, pool)
    refuse_unless(challenge is not None, POOL_SPENT)
    out[:] = challenge
    return DONE


@answers_refusals
def public_key(secret_key, points, out):
    s = set_of_encoding(secret_key)
    refuse_unless(len(secret_key) == encodings.secret_key_length(s), LENGTH)
    refuse_unless(len(points) == s.t and len(out) == encodings.public_key_length(s), LENGTH)
    refuse_unless(are_points(s, points), EXPONENTS)
    f = encodings.read_key(secret_key[1:])
    refuse_unless(is_key(f), KEY_VALUE)
    out[:] = encodings.write_public_key(s, points, evaluation_residues(s, f, points))
    return DONE


@answers_refusals
def sign(secret_key, points, masks, message, out, rule):
    refuse_unless(len(message) <= MOST_MESSAGE_BYTES, LENGTH)
    s = set_of_encoding(secret_key)
    refuse_unless(len(secret_key) == encodings.secret_key_length(s), LENGTH)
    refuse_unless(len(points) == s.t and len(out) == encodings.signature_length(s), LENGTH)
    refuse_unless(len(masks) % s.N == 0 and len(masks) <= MOST_MASKS * s.N, LENGTH)
    refuse_unless(rule in RULES, RULE)
    refuse_unless(are_points(s, points), EXPONENTS)
    f = encodings.read_key(secret_key[1:])
    refuse_unless(is_key(f), KEY_VALUE)
    refuse_unless(is_mask(s, masks), MASK_COEFFICIENT)
    each = [masks[at:at + s.N] for at in range(0, len(masks), s.N)]
    signed = signing.sign(s, f, points, each, message, rule)
    refuse_unless(signed is not None, NO_MASK_PASSES)
    out[:] = encodings.write_signature(s, signed.challenge, signed.z)
    return SIGNED + signed.passed_over


@answers_refusals
def check(public_key, message, signature, rule):
    refuse_unless(len(message) <= MOST_MESSAGE_BYTES, LENGTH)
    refuse_unless(len(public_key) > 0 and len(signature) > 0, LENGTH)
    s = set_of(public_key[0])
    refuse_unless(signature[0] == public_key[0], SET)
    refuse_unless(len(public_key) == encodings.public_key_length(s), LENGTH)
    refuse_unless(len(signature) == encodings.signature_length(s), LENGTH)
    refuse_unless(rule in RULES, RULE)
    points, public_evaluations = encodings.read_public_key(s, public_key[1:])
    refuse_unless(are_points(s, points), EXPONENTS)
    refuse_unless(are_evaluations(s, public_evaluations), EVALUATION)
    entries, z = encodings.read_signature(s, signature[1:])
    refuse_unless(encodings.are_entries(s, entries), CHALLENGE_INDEX)
    c = encodings.challenge_of(s, entries)
    return YES if signing.check(s, points, public_evaluations, message, c, z, rule) else NO


# ── Readers and writers of the encodings ────────────────────────────────────────────────────────

@answers_refusals
def read_secret_key(secret_key, out):
    s = set_of_encoding(secret_key)
    refuse_unless(len(secret_key) == encodings.secret_key_length(s) and len(out) == s.N, LENGTH)
    f = encodings.read_key(secret_key[1:])
    refuse_unless(is_key(f), KEY_VALUE)
    out[:] = f
    return DONE


@answers_refusals
def write_secret_key(set_number, f, out):
    s = set_of(set_number)
    refuse_unless(len(f) == s.N and len(out) == encodings.secret_key_length(s), LENGTH)
    refuse_unless(is_key(f), KEY_VALUE)
    out[:] = encodings.write_secret_key(s, f)
    return DONE


@answers_refusals
def read_public_key(public_key, points_out, evaluations_out):
    s = set_of_encoding(public_key)
    refuse_unless(len(public_key) == encodings.public_key_length(s), LENGTH)
    refuse_unless(len(points_out) == len(evaluations_out) == s.t, LENGTH)
    points, public_evaluations = encodings.read_public_key(s, public_key[1:])
    refuse_unless(are_points(s, points), EXPONENTS)
    refuse_unless(are_evaluations(s, public_evaluations), EVALUATION)
    points_out[:], evaluations_out[:] = points, public_evaluations
    return DONE


@answers_refusals
def write_public_key(set_number, points, public_evaluations, out):
    s = set_of(set_number)
    refuse_unless(len(points) == len(public_evaluations) == s.t, LENGTH)
    refuse_unless(len(out) == encodings.public_key_length(s), LENGTH)
    refuse_unless(are_points(s, points), EXPONENTS)
    refuse_unless(are_evaluations(s, public_evaluations), EVALUATION)
    out[:] = encodings.write_public_key(s, points, public_evaluations)
    return DONE


@answers_refusals
def read_signature(signature, entries_out, z_out):
    s = set_of_encoding(signature)
    refuse_unless(len(signature) == encodings.signature_length(s), LENGTH)
    refuse_unless(len(entries_out) == s.b and len(z_out) == s.N, LENGTH)
    entries, z = encodings.read_signature(s, signature[1:])
    refuse_unless(encodings.are_entries(s, entries), CHALLENGE_INDEX)
    entries_out[:], z_out[:] = entries, z
    return DONE


@answers_refusals
def write_signature(set_number, entries, z, out):
    s = set_of(set_number)
    refuse_unless(len(entries) == s.b and len(z) == s.N, LENGTH)
    refuse_unless(len(out) == encodings.signature_length(s), LENGTH)
    refuse_unless(encodings.are_entries(s, entries), CHALLENGE_INDEX)
    out[:] = encodings.write_entries(s, entries, z)
    return DONE
