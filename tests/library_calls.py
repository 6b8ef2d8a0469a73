"""Seeded calls of the library's entries for C, good and damaged, in all five sets.

A call's name is ENTRY/SET/KIND/REPEAT. Name and seed alone make it, so that one call is replayed
without the calls before it.
"""

from functools import lru_cache, partial
from itertools import combinations
from random import Random
from typing import NamedTuple

import codec_calls
import material
from damages import DAMAGES
from reference import encodings
from reference.challenge import RULES, skip_bound
from reference.parameters import SETS


class Call(NamedTuple):
    name: str
    entry: str
    arguments: dict  # by name, in the entry's order


# How often each kind is called, by set: a call of the reference takes longer in the later ones.
REPEATS = (30, 5, 4, 3, 2)
# Kinds that are called more often than once for each repeat.
OFTEN = {"good": 4, "after failing": 2, "two damages": 4, "three damages": 2}


# ── Good calls ──────────────────────────────────────────────────────────────────────────────────

def evaluate(rng, s):
    edge = rng.choice((1, 6, s.k, 32767))
    coefficients = material.within(rng, s, edge)
    out = material.signed(rng, s.t, 32)
    return {"set": s.number, "coefficients": coefficients, "points": material.points(rng, s), "out": out}


def evaluate_all(rng, s):
    return at_all(rng, s, material.signed(rng, s.N, 16))


def at_all(rng, s, coefficients):
    return {"set": s.number, "coefficients": coefficients, "out": material.signed(rng, s.N - 1, 32)}


def draw(rng, s):
    return with_pool(rng, s, rng.randbytes(64 * rng.randint(1, 8)))


def with_pool(rng, s, pool):
    out = material.signed(rng, s.N, 8)
    return {"set": s.number, "pool": pool, "out": out}


def public_key(rng, s):
    return {"secret_key": encodings.write_secret_key(s, material.key(rng, s)),
            "points": material.points(rng, s), "out": rng.randbytes(encodings.public_key_length(s))}


def signer(rng, s):
    """A key, points, a message and a rule."""
    return material.key(rng, s), material.points(rng, s), material.message(rng), material.any_rule(rng)


def sign(rng, s):
    masks = [material.mask(rng, s) for _ in range(rng.choice((1, 1, 2, 3, 8)))]
    f, at, text, rule = signer(rng, s)
    return with_masks(rng, s, f, at, masks, text, rule)


def with_masks(rng, s, f, at, masks, message, rule):
    return {"secret_key": encodings.write_secret_key(s, f), "points": at,
            "masks": [value for y in masks for value in y], "message": message,
            "out": rng.randbytes(encodings.signature_length(s)), "rule": rule}


def check(rng, s):
    f, at, text, rule = signer(rng, s)
    return with_signature(s, f, at, text, material.signature(rng, s, f, at, text, rule), rule)


def with_signature(s, f, at, text, signature, rule):
    return {"public_key": material.public_key(s, f, at), "message": text, "signature": signature, "rule": rule}


GOOD = {"evaluate": evaluate, "evaluate_all": evaluate_all, "draw": draw, "public_key": public_key, "sign": sign, "check": check,
        **codec_calls.GOOD}


# ── Calls made for one case ─────────────────────────────────────────────────────────────────────

def corners(make, of=""):
    """A kind of call for each of material.CORNERS: make(rng, s, corner) makes it."""
    return {of + kind: partial(make, corner=corner) for kind, corner in material.CORNERS.items()}


def evaluate_corner(rng, s, corner):
    """Exponents 1 and N-1 are among the points, here and below."""
    return {**evaluate(rng, s), "coefficients": corner(rng, s, -32768, 32767), "points": material.points_with_ends(rng, s)}


def evaluate_at_end(sign):
    """At one of the points the evaluation is (q-1)/2, or -(q-1)/2."""
    def make(rng, s):
        arguments = evaluate(rng, s)
        j = rng.choice(arguments["points"])
        arguments["coefficients"] = material.coefficients_evaluating_to(rng, s, j, sign * (s.q - 1) // 2)
        return arguments
    return make


def all_at_end(sign):
    """At one exponent, often the first or the last, the evaluation is (q-1)/2, or -(q-1)/2."""
    def make(rng, s):
        j = rng.choice((1, s.N - 1, rng.randrange(1, s.N)))
        return at_all(rng, s, material.coefficients_evaluating_to(rng, s, j, sign * (s.q - 1) // 2))
    return make


def all_corner(rng, s, corner):
    return at_all(rng, s, corner(rng, s, -32768, 32767))


def public_key_corner(rng, s, corner):
    f = corner(rng, s, -1, 1)
    return {**public_key(rng, s), "secret_key": encodings.write_secret_key(s, f), "points": material.points_with_ends(rng, s)}


def pool_of_values(rng, length, values):
    body = b"".join(v.to_bytes(2, "big") for v in values)
    return rng.randbytes(8) + body.ljust(length - 8, b"\0")


def draw_zeros(rng, s):
    return with_pool(rng, s, bytes(64 * rng.randint(1, 8)))


def draw_wrong_pool(rng, s):
    return with_pool(rng, s, rng.randbytes(rng.choice((0, 1, 63, 65, 96, 511, 513, 576))))


def skipped_values(rng, s, kept, count):
    """Values that the drawer skips: from the skip bound on, or of an index kept before."""
    top = [v for v in (skip_bound(s), 65535) if v < 65536]
    repeats = [i + s.N * rng.randrange(65536 // s.N) for i in kept]
    return [rng.choice(top + repeats) for _ in range(count)]


def draw_at_the_last_value(length, spent=False):
    """Index b is drawn by the very last value of a pool of this length; or not quite, and the pool is spent, as it is where b values have no room."""
    def make(rng, s):
        room = (length - 8) // 2
        indices = rng.sample(range(s.N), min(s.b, room))
        values = indices[:-1]
        values += skipped_values(rng, s, values, room - len(indices))
        values += skipped_values(rng, s, indices[:-1], 1) if spent else indices[-1:]
        return with_pool(rng, s, pool_of_values(rng, length, values))
    return make


def draws_at_the_last_value():
    """For pools of every length."""
    return {f"{'spent at ' if spent else ''}last value of {length} bytes": draw_at_the_last_value(length, spent)
            for length in material.POOL_LENGTHS for spent in (False, True)}


def draw_about_the_skip_bound(rng, s):
    bound = skip_bound(s)
    edges = [0, 1, s.N - 1, s.N, bound - 1, bound - s.N, bound, 65535]
    values = [rng.choice(edges) if rng.random() < 0.5 else rng.randrange(65536) for _ in range(252)]
    return with_pool(rng, s, pool_of_values(rng, 512, values))


def sign_after_failing(rng, s):
    """Masks that are passed over, then one that passes, then any."""
    f, at, text, rule = signer(rng, s)
    failing = rng.randint(1, 7)
    masks = [material.failing_mask(rng, s, f, at, text, rule) for _ in range(failing)]
    masks.append(material.passing_mask(rng, s))
    masks += [material.mask(rng, s) for _ in range(rng.randint(0, 8 - len(masks)))]
    return with_masks(rng, s, f, at, masks, text, rule)


def sign_none_passes(rng, s):
    f, at, text, rule = signer(rng, s)
    masks = [material.failing_mask(rng, s, f, at, text, rule) for _ in range(rng.choice((1, 2, 8)))]
    return with_masks(rng, s, f, at, masks, text, rule)


def sign_at_the_edge(rng, s):
    """Sparse keys, the mask's largest coefficient at ±(k - b) or one beyond."""
    y = material.passing_mask(rng, s)
    y[rng.randrange(s.N)] = rng.choice((-1, 1)) * (s.k - s.b + rng.randint(-1, 2))
    masks = [y, material.passing_mask(rng, s)]
    _, at, text, rule = signer(rng, s)
    return with_masks(rng, s, material.sparse_key(rng, s), at, masks, text, rule)


def sign_tight(rng, s):
    masks = [material.tight_mask(rng, s) for _ in range(rng.randint(1, 4))]
    f, at, text, rule = signer(rng, s)
    return with_masks(rng, s, f, at, masks, text, rule)


def sign_passing_under(rule):
    """A mask that passes under this rule alone, then one that passes: under the other rule the first is passed over."""
    def make(rng, s):
        _, at, text, used = signer(rng, s)
        f = material.dense_key(rng, s)
        masks = [material.mask_passing_alone(rng, s, f, at, text, rule), material.passing_mask(rng, s)]
        return with_masks(rng, s, f, at, masks, text, used)
    return make


def sign_key_corner(rng, s, corner):
    masks = [material.tight_mask(rng, s), material.passing_mask(rng, s)]
    _, _, text, rule = signer(rng, s)
    return with_masks(rng, s, corner(rng, s, -1, 1), material.points_with_ends(rng, s), masks, text, rule)


def sign_mask_corner(rng, s, corner):
    """A mask within k, most often passed over, then one within k - 2b, which passes whatever key and challenge are."""
    masks = [corner(rng, s, -bound, bound) for bound in (s.k, s.k - 2 * s.b)]
    f, _, text, rule = signer(rng, s)
    return with_masks(rng, s, f, material.points_with_ends(rng, s), masks, text, rule)


def check_at(beyond):
    """z at k - b, or beyond it with a challenge that fits: a no for its range alone."""
    def make(rng, s):
        _, at, text, rule = signer(rng, s)
        f, signature = material.edge_signature(rng, s, at, text, beyond, rule)
        return with_signature(s, f, at, text, signature, rule)
    return make


def check_of_another_key(rng, s):
    f, at, text, rule = signer(rng, s)
    return with_signature(s, material.key(rng, s), at, text, material.signature(rng, s, f, at, text, rule), rule)


def check_made_under(made_under):
    """A signature made under this rule, checked under the other."""
    def make(rng, s):
        f, at, text, _ = signer(rng, s)
        return with_signature(s, f, at, text, material.signature(rng, s, f, at, text, made_under), material.other_rule(made_under))
    return make


def check_key_corner(rng, s, corner):
    _, _, text, rule = signer(rng, s)
    f, at = corner(rng, s, -1, 1), material.points_with_ends(rng, s)
    return with_signature(s, f, at, text, material.signature(rng, s, f, at, text, rule), rule)


def check_z_corner(rng, s, corner):
    """A yes up to the ends of the range: with a key of zeros the mask is z."""
    _, _, text, rule = signer(rng, s)
    f, at = [0] * s.N, material.points_with_ends(rng, s)
    z = corner(rng, s, s.b - s.k, s.k - s.b)
    return with_signature(s, f, at, text, material.passing_signature(s, f, at, z, text, rule), rule)


def check_drawn(wanted):
    """A yes to a challenge as wanted."""
    def make(rng, s):
        f, _, _, rule = signer(rng, s)
        at, y = material.points_with_ends(rng, s), material.passing_mask(rng, s)
        text = material.message_drawing(rng, s, at, y, wanted, rule)
        return with_signature(s, f, at, text, material.passing_signature(s, f, at, y, text, rule), rule)
    return make


def check_in_a_row(first, sign):
    """Entries with neighbouring indices and one sign: a no, because no search finds a message that draws them, but in set 0 by chance."""
    def make(rng, s):
        entries = [i | sign for i in range(first(s), first(s) + s.b)]
        signature = encodings.write_entries(s, entries, material.within(rng, s, s.k - s.b))
        f, _, text, rule = signer(rng, s)
        return with_signature(s, f, material.points_with_ends(rng, s), text, signature, rule)
    return make


def check_any_bytes(rng, s):
    """Entries in order and z in range, but nobody signed."""
    signature = encodings.write_entries(s, material.entries(rng, s), material.within(rng, s, s.k - s.b))
    f, at, text, rule = signer(rng, s)
    return with_signature(s, f, at, text, signature, rule)


SPECIAL = {
    "evaluate": {**corners(evaluate_corner), "upper end": evaluate_at_end(1), "lower end": evaluate_at_end(-1)},
    "evaluate_all": {**corners(all_corner), "upper end": all_at_end(1), "lower end": all_at_end(-1)},
    "public_key": corners(public_key_corner),
    "draw": {"zeros": draw_zeros, "wrong pool": draw_wrong_pool, "skip bound": draw_about_the_skip_bound, **draws_at_the_last_value()},
    "sign": {"after failing": sign_after_failing, "none passes": sign_none_passes,
             "edge": sign_at_the_edge, "tight": sign_tight,
             **{f"passing under {rule} alone": sign_passing_under(rule) for rule in RULES},
             **corners(sign_key_corner, "key "), **corners(sign_mask_corner, "mask ")},
    "check": {"z at k-b": check_at(0), "z at k-b+1": check_at(1), "z at k-b+2": check_at(2),
              "another key": check_of_another_key, "any bytes": check_any_bytes,
              **{f"made under {rule}, checked under the other": check_made_under(rule) for rule in RULES},
              **corners(check_key_corner, "key "), **corners(check_z_corner, "z "),
              **{f"drawn {kind}": check_drawn(wanted) for kind, wanted in material.CHALLENGES.items()},
              "first indices": check_in_a_row(lambda s: 0, 0), "first indices, -1": check_in_a_row(lambda s: 0, 0x8000),
              "last indices": check_in_a_row(lambda s: s.N - s.b, 0), "last indices, -1": check_in_a_row(lambda s: s.N - s.b, 0x8000)},
    **codec_calls.SPECIAL,
}


# ── All calls ───────────────────────────────────────────────────────────────────────────────────

def damaged_by(entry, *names):
    def make(rng, s):
        arguments = GOOD[entry](rng, s)
        for name in names:
            DAMAGES[entry][name](rng, s, arguments)
        return arguments
    return make


def damaged(entry, how_many):
    def make(rng, s):
        return damaged_by(entry, *rng.sample(sorted(DAMAGES[entry]), how_many))(rng, s)
    return make


@lru_cache(maxsize=None)
def kinds(entry):
    """Each kind's name and maker, for every set."""
    return {"good": GOOD[entry], **SPECIAL.get(entry, {}),
            **{name: damaged_by(entry, name) for name in DAMAGES[entry]},
            "two damages": damaged(entry, 2), "three damages": damaged(entry, 3)}


@lru_cache(maxsize=None)
def pairs(entry):
    """Every two damages together, for the order of the tests. Set 0 alone: it is quick."""
    return {f"{a} and {b}": damaged_by(entry, a, b) for a, b in combinations(DAMAGES[entry], 2)}


def names(entries=GOOD):
    for entry in entries:
        for s in SETS:
            for kind in kinds(entry):
                for repeat in range(REPEATS[s.number] * OFTEN.get(kind, 1)):
                    yield f"{entry}/{s.number}/{kind}/{repeat}"
        for pair in pairs(entry):
            for repeat in range(2):
                yield f"{entry}/0/{pair}/{repeat}"


def make(seed, name):
    entry, set_number, kind, _ = name.split("/")
    rng = Random(f"{seed} {name}")
    maker = kinds(entry).get(kind) or pairs(entry)[kind]
    return Call(name, entry, maker(rng, SETS[int(set_number)]))
