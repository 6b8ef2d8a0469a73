"""Empty slices lent as null pointers: every function, with each choice of its slices empty and the others good, must answer and leave all lent memory as with
pointers that are not null, and as the reference does. An empty message is accepted so."""

from collections import Counter
from itertools import combinations
from random import Random

import library_calls
import material
from c_library import ENTRIES, NUMBERS
from compare_calls import TAKE_A_RULE, difference, expected
from library_calls import Call
from reference.challenge import RULES
from reference.library import SIGNED, YES
from reference.parameters import SETS

NO_SET, NO_RULE = 5, 3


def signed_nothing(rng, s, entry, rule):
    """A check that says yes to an empty message, or a signing of one."""
    f, at, text = material.key(rng, s), material.points(rng, s), b""
    if entry == "sign":
        return library_calls.with_masks(rng, s, f, at, [material.passing_mask(rng, s)], text, rule)
    return library_calls.with_signature(s, f, at, text, material.signature(rng, s, f, at, text, rule), rule)


def good_calls(rng, s, entry):
    """Under each rule and under what is none; with the set and with what is none, where it is an argument."""
    if entry in TAKE_A_RULE:
        signed = [signed_nothing(rng, s, entry, rule) for rule in RULES]
        return signed + [{**signed[0], "rule": NO_RULE}]
    good = library_calls.GOOD[entry](rng, s)
    return [good, {**good, "set": NO_SET}] if "set" in good else [good]


def choices(arguments):
    """Every choice of slices, but none at all."""
    slices = [name for name in arguments if name not in NUMBERS]
    return [chosen for count in range(1, len(slices) + 1) for chosen in combinations(slices, count)]


def calls_of(seed, entry):
    for s in SETS:
        for good in good_calls(Random(f"{seed} empty slices of {entry} in set {s.number}"), s, entry):
            for chosen in choices(good):
                arguments = {name: values[:0] if name in chosen else values for name, values in good.items()}
                yield Call(f"set {s.number}, {', '.join(chosen)} empty", entry, arguments), chosen


def run(seed, kit_call):
    """True when all agree."""
    accepted, made = Counter(), 0
    for entry in ENTRIES:
        for call, chosen in calls_of(seed, entry):
            answer, after = expected(call)
            for null in ((), chosen):
                text = difference(call, lambda entry, arguments: kit_call(entry, arguments, null), answer, after)
                if text:
                    print(f"null pointers: DIFFERENCE in passign_{entry}, {call.name}, lent {'as null' if null else 'not as null'}: {text}; "
                          f"again: tests/run --seed {seed}")
                    return False
            accepted[entry] += answer in (SIGNED, YES) and chosen == ("message",)
            made += 1
    complete = all(accepted[entry] == len(RULES) * len(SETS) for entry in TAKE_A_RULE)
    print(f"null pointers: {made} calls with empty slices agree with the reference, the slices lent as null pointers and not"
          f"{'' if complete else ': NO EMPTY MESSAGE ACCEPTED IN SOME SET'}, seed {seed}")
    return complete
