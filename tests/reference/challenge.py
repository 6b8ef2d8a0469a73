"""Document 01, "Hash and challenge", and the rules of request #106 by which a commitment goes into the hash."""

from hashlib import sha512

DIGESTS_IN_A_POOL = 8
LOW_BYTE_RULE, THREE_BYTE_RULE = 1, 2
RULES = (LOW_BYTE_RULE, THREE_BYTE_RULE)


def commitment_bytes(commitment, rule):
    """Of each evaluation, in 0..q-1 and in order: its remainder by 256, or all its three bytes, low byte first."""
    if rule == LOW_BYTE_RULE:
        return bytes(evaluation % 256 for evaluation in commitment)
    return b"".join(evaluation.to_bytes(3, "little") for evaluation in commitment)


def pool_of(commitment, message, rule):
    """Eight digests, 512 bytes."""
    digests = [sha512(commitment_bytes(commitment, rule) + sha512(message).digest()).digest()]
    while len(digests) < DIGESTS_IN_A_POOL:
        digests.append(sha512(digests[-1]).digest())
    return b"".join(digests)


def is_pool_length(length):
    return length % 64 == 0 and 64 <= length <= 512


def sign_of(pool, i):
    return -1 if pool[i // 8] >> (i % 8) & 1 else 1


def skip_bound(s):
    """Values from here on are skipped."""
    return s.N * (65536 // s.N)


def draw(s, pool):
    """The challenge as N coefficients, or None when the pool is spent before b indices are kept."""
    challenge = [0] * s.N
    kept = 0
    for at in range(8, len(pool), 2):
        v = pool[at] * 256 + pool[at + 1]
        if v >= skip_bound(s) or challenge[v % s.N] != 0:
            continue
        challenge[v % s.N] = sign_of(pool, kept)
        kept += 1
        if kept == s.b:
            return challenge
    return None
