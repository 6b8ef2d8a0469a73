"""Cases of public_key."""

from functools import partial

from damages import put
from reference import encodings
from reference.test_document import KEY, POINTS

from .case import case
from .common import (NO_SETS, blank, exponent_N, secret_key, short_and_wrong, signer, wrong_keys, wrong_lengths, wrong_point_counts,
                     wrong_point_lists, wrong_rooms, wrong_sets)


def public_key_cases(s):
    of, me, zeros = partial(case, "public_key", s, None), signer(s), secret_key(s, blank(s))
    good = {"secret_key": zeros, "points": me.at}
    if s.number == 0:
        worked = {"secret_key": encodings.write_secret_key(s, KEY), "points": POINTS}
        yield of("worked key", "Document 01's key at 1 and 2: 7 and 30 in 0..q-1.", 0, worked)
    yield of("key", "The key and points of sign's cases: evaluations are in 0..q-1 here, where evaluate gives the signed form.", 0,
             {**good, "secret_key": secret_key(s, me)})
    yield of("key of -1", "Equal coefficients evaluate to 0, and not to q.", 0, {**good, "secret_key": encodings.write_secret_key(s, [-1] * s.N)})
    for what, comment, data in wrong_lengths("secret key", zeros):
        yield of(what, comment, 1, {**good, "secret_key": data})
    yield from wrong_point_counts(s, of, good)
    yield from wrong_rooms(of, good, "public_key", encodings.public_key_length(s))
    yield from wrong_sets(of, good)
    yield from wrong_point_lists(s, of, good)
    for what, comment, data in wrong_keys(zeros):
        yield of(what, comment, 5, {**good, "secret_key": data})
    wrong_point = {**good, "points": exponent_N(s)}
    yield of("empty before 2", "An empty secret key, which names no set, and no points.", 1, {"secret_key": b"", "points": []})
    yield of("2 before lengths", "A secret key that is its set byte 5 alone, and no points.", 2, {"secret_key": bytes(NO_SETS[:1]), "points": []})
    yield of("secret key before 4", "A byte of the secret key too few, and exponent N.", 1, {**wrong_point, "secret_key": zeros[:-1]})
    yield of("points before 4", "A point too few, and exponent N.", 1, {**good, "points": short_and_wrong(s)})
    yield of("room before 4", "No room for the public key, and exponent N.", 1, wrong_point, public_key_length=encodings.public_key_length(s) - 1)
    yield of("4 before 5", "Exponent N, and key byte 02.", 4, {**wrong_point, "secret_key": put(zeros, 1, 2)})
