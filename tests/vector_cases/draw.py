"""Cases of draw."""

from functools import partial
from random import Random

import library_calls
import material
from reference import encodings
from reference.challenge import RULES, pool_of, skip_bound
from reference.polynomials import evaluation_residues

from .case import case
from .common import NO_SETS, signer, wrong_rooms, wrong_sets

SIGNS = bytes.fromhex("1DA65BC378000000")  # sign 1 is +1, and signs 2, 3, 4 are -1: where a skipped value takes a sign, it shows


def pool_with(signs, values):
    return (signs + encodings.number_bytes(values, 2)).ljust(128, b"\0")


def draw_cases(s):
    of = partial(case, "draw", s, None)
    for what, comment, answer, pool in (*drawn_pools(s), *drawn_signs(s), *pools_to_the_last_value(s)):
        yield of(what, comment, answer, {"set": s.number, "pool": pool})
    yield from draw_refusals(s, of)


def drawn_pools(s):
    """What it is, why, the answer, and the pool: here and below."""
    me, bound = signer(s), skip_bound(s)
    if s.number == 0:
        yield ("worked case", "Document 01: 7 gives index 2 with +1, 12 gives 2 again, 65535 is skipped, 3 gives index 3 with -1.", 0,
               bytes.fromhex("02 00000000000000 0007 000C FFFF 0003").ljust(64, b"\0"))
    for rule in RULES:
        yield (f"pool under rule {rule}", f"A real one, of the message and the commitment of sign's case 'mask passes' under rule {rule}, which is "
               "evaluate's case 'mask' with q added to what is negative: where yours is another, your hash is; its first 64 bytes are the first digest.", 0,
               pool_of(evaluation_residues(s, me.y, me.at), me.text, rule))
    yield ("skip bound", f"{bound - 1}, just below N*(65536//N), is kept and gives index N-1; {bound} and 65535 are skipped, and without that the "
           "first of them gives index 0.", 0, pool_with(SIGNS, [bound - 1, bound, 65535, *range(1, s.b)]))
    yield ("repeated index", "Index 3 comes as 3, 3, N+3 and 2N+3: it is kept once and takes one sign, so that the next index gets sign 1.", 0,
           pool_with(SIGNS, [3, 3, s.N + 3, 2 * s.N + 3, *range(4, s.b + 3)]))


def drawn_signs(s):
    first, last = b"\1" + bytes(7), (1 << s.b - 1).to_bytes(8, "little")
    yield ("sign of the first drawn", "Indices come from N-1 down and sign 0 alone is -1: with -1 at index N-b the signs went by size of the index, with "
           "-1 elsewhere, or nowhere, the bits of a byte were read from the top.", 0, pool_with(first, range(s.N - 1, s.N - 1 - s.b, -1)))
    yield ("sign of the last drawn", "Indices come from 0 up and sign b-1 alone is -1: with -1 elsewhere the sign bytes, or their bits, were read in "
           "another order.", 0, pool_with(last, range(s.b)))


def pools_to_the_last_value(s):
    """Pools of every length: the very last value gives the b-th index, where b values have room, or gives none."""
    for length in material.POOL_LENGTHS:
        rng = Random(f"vectors: pool of {length} bytes in set {s.number}")
        if 8 + 2 * s.b <= length:
            yield (f"last value of {length} bytes", "The very last value of the pool gives the last index: a drawer that stops before it says 11.", 0,
                   library_calls.draw_at_the_last_value(length)(rng, s)["pool"])
        if length in (64, 128, 512):
            yield (f"spent by {length} bytes", "All of the pool gives fewer than b indices.", 11,
                   library_calls.draw_at_the_last_value(length, spent=True)(rng, s)["pool"])
    for length in (64, 512):
        yield f"{length} zeros", "Every value gives index 0, and the pool is spent, as in document 01.", 11, bytes(length)


def draw_refusals(s, of):
    zeros, good = {"set": s.number, "pool": bytes(64)}, {"set": s.number, "pool": pool_with(SIGNS, range(s.b))}
    for length in (0, 63, 65, 96, 511, 576):
        pool = good["pool"][:length].ljust(length, b"\0")
        yield of(f"pool of {length} bytes", "A pool has 64 to 512 bytes, a multiple of 64.", 1, {**good, "pool": pool})
    yield from wrong_rooms(of, good, "challenge", s.N)
    yield from wrong_sets(of, good)
    yield of("2 before lengths", "Set 5, and a pool of 63 bytes.", 2, {"set": NO_SETS[0], "pool": bytes(63)})
    yield of("pool before 11", "A pool of 63 bytes, which is spent.", 1, {**zeros, "pool": bytes(63)})
    yield of("room before 11", "No room for the challenge, and a pool that is spent.", 1, zeros, challenge_length=s.N - 1)
