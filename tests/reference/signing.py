"""Document 01, "Signing and checking", each under a rule of request #106."""

from typing import NamedTuple

from .challenge import draw, pool_of
from .polynomials import evaluation_residues, product


class Signed(NamedTuple):
    passed_over: int
    challenge: list
    z: list


def point(s, f, c, y):
    """z = f ⋆ c + y."""
    return [p + value for p, value in zip(product(s, f, c), y)]


def first_outside(bound, z):
    """The index of the first coefficient that is not in -bound..bound, or their number where none is outside (request #103)."""
    return next((i for i, value in enumerate(z) if not -bound <= value <= bound), len(z))


def in_range(s, z):
    return first_outside(s.k - s.b, z) == len(z)


def try_mask(s, f, points, y, message, rule):
    """The challenge and the point of a mask that passes, else None."""
    c = draw(s, pool_of(evaluation_residues(s, y, points), message, rule))
    if c is None:
        return None
    z = point(s, f, c, y)
    return (c, z) if in_range(s, z) else None


def sign(s, f, points, masks, message, rule):
    """The first mask that passes signs. None when there is no mask or none passes."""
    for passed_over, y in enumerate(masks):
        tried = try_mask(s, f, points, y, message, rule)
        if tried is not None:
            return Signed(passed_over, *tried)
    return None


def check(s, points, public_evaluations, message, c, z, rule):
    """Yes when z is in range and the drawn challenge exists and equals the given one."""
    pairs = zip(evaluation_residues(s, z, points), public_evaluations, evaluation_residues(s, c, points))
    commitment = [(of_z - public * of_c) % s.q for of_z, public, of_c in pairs]
    return in_range(s, z) and draw(s, pool_of(commitment, message, rule)) == c
