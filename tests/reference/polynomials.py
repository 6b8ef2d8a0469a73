"""Document 01, "Polynomials and evaluations". A polynomial is a list of N numbers, index 0 first."""

from array import array
from functools import lru_cache

from .parameters import powers


def product(s, f, c):
    """f ⋆ c, cyclic: x to the N is 1. Quick when c has few entries other than 0."""
    total = [0] * s.N
    for shift, factor in enumerate(c):
        if factor:
            moved = f[s.N - shift:] + f[:s.N - shift]
            total = [have + factor * more for have, more in zip(total, moved)]
    return total


def is_key(f):
    return all(value in (-1, 0, 1) for value in f)


def is_mask(s, y):
    return all(-s.k <= value <= s.k for value in y)


def are_points(s, points):
    """Strictly increasing, each in 1..N-1. (That they are t is a matter of length.)"""
    in_range = all(1 <= j <= s.N - 1 for j in points)
    return in_range and all(a < b for a, b in zip(points, points[1:]))


def are_evaluations(s, values):
    return all(value < s.q for value in values)


def centred(s, value):
    """The integer from -(q-1)/2 to (q-1)/2 that differs from the value by a multiple of q."""
    half = (s.q - 1) // 2
    return (value + half) % s.q - half


def evaluation(s, a, j):
    """The sum of coefficient i times g to the (i × j), in signed form. The definition, slowly."""
    table = powers(s)
    return centred(s, sum(value * table[i * j % s.N] for i, value in enumerate(a)))


def evaluations(s, a, points):
    """The evaluation at each of the points, in their order."""
    return [centred(s, value) for value in evaluation_residues(s, a, points)]


def evaluation_residues(s, a, points):
    """The same in 0..q-1: the form in encodings, in the hash and wherever evaluations are taken."""
    fields = _at_all_exponents(s, tuple(a))
    return [fields[j] % s.q for j in points]


@lru_cache(maxsize=128)
def _at_all_exponents(s, a):
    """Quick: one long number has a field of 64 bits for each exponent, so that one multiplication
    serves all exponents. test_document.py holds it to `evaluation`. Kept for a while: a session's
    polynomials are evaluated when it is written, played and read.
    """
    total = _bias(s) + sum(value * column for value, column in zip(a, _columns(s)) if value)
    return array("Q", total.to_bytes(8 * s.N, "little"))


def _packed(numbers):
    return int.from_bytes(array("Q", numbers).tobytes(), "little")


@lru_cache(maxsize=None)
def _columns(s):
    """For each i the powers g to the (i × j), a field for each j."""
    table = powers(s)
    return [_packed([table[i * j % s.N] for j in range(s.N)]) for i in range(s.N)]


@lru_cache(maxsize=None)
def _bias(s):
    """A multiple of q in each field, above 32768 × q × N: no negative sum borrows from the next."""
    return _packed([s.q << 27] * s.N)
