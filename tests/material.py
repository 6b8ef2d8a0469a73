"""Random points, keys, masks, messages and signatures, for library calls and sessions alike."""

from math import isqrt

from reference import encodings, signing
from reference.challenge import LOW_BYTE_RULE, RULES, THREE_BYTE_RULE, draw, pool_of
from reference.parameters import powers
from reference.polynomials import centred, evaluation, evaluation_residues

MESSAGE_EDGES = (0, 1, 111, 112)  # 111 is the longest message of one SHA-512 block
POOL_LENGTHS = range(64, 513, 64)


def unsigned(rng, count, bits):
    """Numbers that a result buffer may hold before a call."""
    return [rng.getrandbits(bits) for _ in range(count)]


def signed(rng, count, bits):
    """The same, signed."""
    half = 1 << bits - 1
    return [rng.randrange(-half, half) for _ in range(count)]


def points(rng, s):
    chosen = rng.sample(range(1, s.N), s.t)
    return with_ends(s, chosen) if rng.random() < 0.5 else sorted(chosen)


def points_with_ends(rng, s):
    return with_ends(s, rng.sample(range(1, s.N), s.t))


def with_ends(s, chosen):
    """Both ends of 1..N-1 for two of the points."""
    inner = [j for j in chosen if j not in (1, s.N - 1)]
    return sorted([1, s.N - 1] + inner[:s.t - 2])


# ── Coefficients at the ends of low..high ───────────────────────────────────────────────────────

def all_low(rng, s, low, high):
    """Equal coefficients evaluate to 0, by large sums."""
    return [low] * s.N


def all_high(rng, s, low, high):
    return [high] * s.N


def alternating(rng, s, low, high):
    return ([low, high] * s.N)[:s.N]


def any_ends(rng, s, low, high):
    return [rng.choice((low, high)) for _ in range(s.N)]


def alone(place):
    """One coefficient alone is not 0."""
    def make(rng, s, low, high):
        coefficients = [0] * s.N
        coefficients[place(rng, s)] = rng.choice((low, -1, 1, high))
        return coefficients
    return make


def along(sign):
    """The largest sum at one exponent, often the first or the last, or the least: each power of g times the end of its own sign, or of the other."""
    def make(rng, s, low, high):
        j = rng.choice((1, s.N - 1, rng.randrange(1, s.N)))
        return [high if sign * centred(s, powers(s)[i * j % s.N]) > 0 else low for i in range(s.N)]
    return make


def zeros(rng, s, low, high):
    return [0] * s.N


# By kind, makers that take (rng, s, low, high).
CORNERS = {"all low": all_low, "all high": all_high, "alternating": alternating, "any ends": any_ends, "zeros": zeros,
           "first alone": alone(lambda rng, s: 0), "second alone": alone(lambda rng, s: 1), "last alone": alone(lambda rng, s: s.N - 1),
           "one alone": alone(lambda rng, s: rng.randrange(s.N)), "largest sum": along(1), "least sum": along(-1)}


# ── Keys, masks, messages and signatures ────────────────────────────────────────────────────────

def sparse_key(rng, s):
    """Few entries, so that a point stays close to its mask."""
    f = [0] * s.N
    for _ in range(rng.randint(0, 3)):
        f[rng.randrange(s.N)] = rng.choice((-1, 1))
    return f


def key(rng, s):
    kind = rng.random()
    if kind < 0.15:
        return sparse_key(rng, s)
    if kind < 0.25:
        return [rng.choice((-1, 1))] * s.N
    return [rng.randint(-1, 1) for _ in range(s.N)]


def dense_key(rng, s):
    """Not all 0."""
    while True:
        f = [rng.randint(-1, 1) for _ in range(s.N)]
        if any(f):
            return f


def key_evaluating_to(rng, s, j, target):
    """A key with this evaluation at exponent j: any key with two coefficients put right."""
    while True:
        f = [rng.randint(-1, 1) for _ in range(s.N)]
        missing = target - evaluation(s, f, j)
        changes = {(value - f[i]) * powers(s)[i * j % s.N] % s.q: (i, value) for i in range(s.N) for value in (-1, 0, 1)}
        for change, (i, value) in changes.items():
            other, other_value = changes.get((missing - change) % s.q, (i, value))
            if other != i:
                f[i], f[other] = value, other_value
                return f


def coefficients_evaluating_to(rng, s, j, target):
    """Coefficients of 16 bits with this evaluation at exponent j: any, with the first two put right."""
    a = [0, 0] + within(rng, s, 32767)[2:]
    missing = target - evaluation(s, a, j)
    while True:
        a[1] = rng.randint(-32768, 32767)
        a[0] = centred(s, missing - a[1] * powers(s)[j])
        if -32768 <= a[0] <= 32767:
            return a


def passing_mask(rng, s):
    """Within k - 2b, so that the point is in range whatever key and challenge are."""
    return within(rng, s, s.k - 2 * s.b)


def within(rng, s, bound):
    return [rng.randint(-bound, bound) for _ in range(s.N)]


def tight_mask(rng, s):
    """A few coefficients about ±(k - b): passes or fails by a little."""
    y = passing_mask(rng, s)
    for _ in range(rng.randint(1, 3)):
        y[rng.randrange(s.N)] = rng.choice((-1, 1)) * (s.k - s.b + rng.randint(-4, min(4, s.b)))
    return y


def corner_mask(rng, s):
    """Coefficients of ±k: all but always passed over."""
    if rng.random() < 0.3:
        return [rng.choice((-s.k, s.k))] * s.N
    y = passing_mask(rng, s)
    y[rng.randrange(s.N)] = rng.choice((-s.k, s.k))
    return y


def mask(rng, s):
    make = rng.choice((passing_mask, tight_mask, corner_mask, lambda rng, s: within(rng, s, s.k)))
    return make(rng, s)


def failing_mask(rng, s, f, at, message, rule):
    """A mask that is passed over, found by trying."""
    while True:
        y = rng.choice((corner_mask, tight_mask))(rng, s)
        if signing.try_mask(s, f, at, y, message, rule) is None:
            return y


def mask_passing_alone(rng, s, f, at, message, rule):
    """A mask that passes under this rule and not under the other, found by trying. The key is not all 0: with that one all depends on the mask."""
    while True:
        y = tight_mask(rng, s)
        if signing.try_mask(s, f, at, y, message, rule) and not signing.try_mask(s, f, at, y, message, other_rule(rule)):
            return y


def any_rule(rng):
    return rng.choice(RULES)


def other_rule(rule):
    return {LOW_BYTE_RULE: THREE_BYTE_RULE, THREE_BYTE_RULE: LOW_BYTE_RULE}[rule]


def message(rng):
    kind = rng.random()
    if kind < 0.4:
        return rng.randbytes(rng.choice(MESSAGE_EDGES))
    if kind < 0.43:
        return rng.randbytes(65535)
    return rng.randbytes(rng.randint(0, 300))


def public_key(s, f, at):
    return encodings.write_public_key(s, at, evaluation_residues(s, f, at))


def public_evaluations(rng, s):
    """Any t numbers below q, both ends among them."""
    return [rng.choice((0, s.q - 1, rng.randrange(s.q), rng.randrange(s.q))) for _ in range(s.t)]


def entries(rng, s):
    """Challenge entries in order, at times the first or the last indices."""
    low = rng.choice((0, s.N - s.b, None, None))
    indices = sorted(rng.sample(range(s.N), s.b)) if low is None else range(low, low + s.b)
    return [i | rng.choice((0, 0x8000)) for i in indices]


def unranged_signature(s, f, at, y, text, rule):
    """The challenge and point of a mask, whether z is in range or not: the challenge always fits."""
    c = draw(s, pool_of(evaluation_residues(s, y, at), text, rule))
    return c, signing.point(s, f, c, y)


def edge_signature(rng, s, at, text, beyond, rule):
    """A key and a signature whose challenge fits and whose largest |z| is just k - b + beyond."""
    while True:
        f = sparse_key(rng, s)
        y = passing_mask(rng, s)
        y[rng.randrange(s.N)] = rng.choice((-1, 1)) * (s.k - s.b + beyond)
        c, z = unranged_signature(s, f, at, y, text, rule)
        if c is not None and max(map(abs, z)) == s.k - s.b + beyond:
            return f, encodings.write_signature(s, c, z)


def signature(rng, s, f, at, text, rule):
    """One that the check says yes to under this rule."""
    return passing_signature(s, f, at, passing_mask(rng, s), text, rule)


def passing_signature(s, f, at, y, text, rule):
    """The same, of a mask that passes."""
    return encodings.write_signature(s, *unranged_signature(s, f, at, y, text, rule))


# ── Challenges ──────────────────────────────────────────────────────────────────────────────────

def has_first(s, c):
    return c[0] != 0


def has_last(s, c):
    return c[-1] != 0


def has_neighbours(s, c):
    """Three indices in a row, or both of set 0."""
    run = min(3, s.b)
    return any(all(c[i:i + run]) for i in range(s.N - run + 1))


def mostly(sign):
    """All b signs the same would take 2^b tries; in set 0 they are."""
    return lambda s, c: sign * sum(c) >= min(s.b, 3 * isqrt(s.b))


# By kind, what is asked of a challenge of set s.
CHALLENGES = {"index 0": has_first, "index N-1": has_last, "neighbours": has_neighbours, "mostly positive": mostly(1), "mostly negative": mostly(-1)}


def message_drawing(rng, s, at, y, wanted, rule):
    """A message with which this mask draws a challenge as wanted, found by trying."""
    commitment = evaluation_residues(s, y, at)
    while True:
        text = rng.randbytes(64)
        c = draw(s, pool_of(commitment, text, rule))
        if c is not None and wanted(s, c):
            return text
