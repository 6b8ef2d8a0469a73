"""Cases of evaluate and evaluate_all."""

from functools import partial
from random import Random

import material
from damages import put
from reference.test_document import KEY, POINTS

from .case import case
from .common import NO_SETS, exponent_N, short_and_wrong, signer, wrong_counts, wrong_point_counts, wrong_point_lists, wrong_rooms, wrong_sets

# Set 0 at 1 and 2: documents 01 and 02.
WORKED = (("worked key", KEY, "7 -1"),
          ("worked key, first of two", [0, -1, 0, -1, 0], "-10 -6"), ("worked key, second of two", [1, 0, 1, 0, 1], "-10 -6"),
          ("worked mask, first of two", [5, 0, -4, 0, -2], "-12 -13"), ("worked mask, second of two", [3, -2, -6, -2, -4], "-12 -13"))


def polynomials(s):
    """What it is, why, and its coefficients: here and below."""
    me, rng = signer(s), Random(f"vectors: polynomials of set {s.number}")
    yield "key", "The key of sign's cases.", me.f
    yield "mask", "The mask of sign's case 'mask passes': at the points, and with q added to what is negative, its commitment.", me.y
    yield "x", "Coefficient 1 alone is not 0: g to the j at exponent j.", put([0] * s.N, 1, 1)
    wide = ": a sum in 32 bits runs over" if s.q * s.N > 1 << 17 else ""  # times 32768
    yield "all -32768", f"Equal coefficients evaluate to 0, by a large negative sum{wide}.", [-32768] * s.N
    for what, sign, shows in (("largest", 1, ""), ("least", -1, "; a remainder that keeps the sign shows")):
        yield (f"{what} sum", f"Coefficients -32768 and 32767 with the {what} sum that an exponent can have{wide}{shows}.",
               material.along(sign)(rng, s, -32768, 32767))


def ends(s, exponents):
    """An evaluation at each end of the signed form, at the first exponent and at the last."""
    rng, half = Random(f"vectors: ends of set {s.number}"), (s.q - 1) // 2
    for what, j, target in (("upper end", exponents[0], half), ("lower end", exponents[-1], -half)):
        yield (what, f"At exponent {j} it is {target}, an end of the signed form: where the turn is one step off, it is off by q.",
               material.coefficients_evaluating_to(rng, s, j, target))


def evaluate_cases(s):
    of, at = partial(case, "evaluate", s, None), signer(s).at
    for what, f, values in WORKED if s.number == 0 else ():
        worked = of(what, f"Documents 01 and 02: {values}.", 0, {"set": 0, "coefficients": f, "points": POINTS})
        assert " ".join(map(str, worked["expected"]["evaluations"])) == values
        yield worked
    for what, comment, f in (*polynomials(s), *ends(s, at)):
        yield of(what, comment, 0, {"set": s.number, "coefficients": f, "points": at})
    good = {"set": s.number, "coefficients": [0] * s.N, "points": at}
    yield from wrong_counts(of, good, "coefficients", "a coefficient", s.N)
    yield from wrong_point_counts(s, of, good)
    yield from wrong_rooms(of, good, "evaluations", s.t)
    yield from wrong_sets(of, good)
    yield from wrong_point_lists(s, of, good)
    yield of("2 before lengths", "Set 5, no coefficients and no points.", 2, {"set": NO_SETS[0], "coefficients": [], "points": []})
    wrong = {**good, "points": exponent_N(s)}
    few = {**good, "points": at[:-1]}
    yield of("a point and room too few", "Points and results are as many as each other, but not t.", 1, few, evaluations_length=s.t - 1)
    yield of("coefficients before 4", "A coefficient too few, and exponent N.", 1, {**wrong, "coefficients": [0] * (s.N - 1)})
    yield of("points before 4", "A point too few, and exponent N.", 1, {**good, "points": short_and_wrong(s)})
    yield of("room before 4", "No room for the results, and exponent N.", 1, wrong, evaluations_length=s.t - 1)


def evaluate_all_cases(s):
    of = partial(case, "evaluate_all", s, None)
    if s.number == 0:
        yield of("worked key", "Document 01's key, at 1, 2, 3 and 4.", 0, {"set": 0, "coefficients": KEY})
    for what, comment, f in (*polynomials(s), *ends(s, (1, s.N - 1))):
        yield of(what, comment, 0, {"set": s.number, "coefficients": f})
    good = {"set": s.number, "coefficients": [0] * s.N}
    yield from wrong_counts(of, good, "coefficients", "a coefficient", s.N)
    yield from wrong_rooms(of, good, "evaluations", s.N - 1)
    yield of("room for t evaluations", "There are N-1, as many as exponents.", 1, good, evaluations_length=s.t)
    yield from wrong_sets(of, good)
    yield of("2 before lengths", "Set 5, and no coefficients.", 2, {"set": NO_SETS[0], "coefficients": []})
