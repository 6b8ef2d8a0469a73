"""The test of a range through crate harness and through the reference: the index of the first number outside, of 16 and of 32 bits."""

import ctypes
from array import array
from collections import Counter
from random import Random

from reference.parameters import SETS
from reference.signing import first_outside

# element of module array, and its least and its largest number, by the function's name
WIDTHS = {"harness_first_outside": ("i", -2**31, 2**31 - 1), "harness_first_outside16": ("h", -2**15, 2**15 - 1)}


def bounds():
    """Of every set k - b and k; the least, and the largest that is allowed, at which of 16 bits only -32768 is outside."""
    return sorted({bound for s in SETS for bound in (s.k - s.b, s.k)} | {0, 1, 32767})


def inside(rng, bound):
    return rng.choice((-bound, bound, rng.randint(-bound, bound)))


def outside(rng, bound, least, largest):
    """A number outside, by 1 or the width's end."""
    choices = [value for value in (bound + 1, largest) if bound < value <= largest]
    choices += [value for value in (-bound - 1, least) if least <= value < -bound]
    return rng.choice(choices)


def make(rng, width, size, bound, places):
    """A list with numbers outside at the places alone."""
    _, least, largest = WIDTHS[width]
    values = [inside(rng, bound) for _ in range(size)]
    for place in places:
        values[place] = outside(rng, bound, least, largest)
    return values


def lists(rng):
    """Sizes and the places outside: none, each place alone, and several; of a short list and of a point of each set."""
    for size in range(52):
        yield size, []
        for place in range(size):
            yield size, [place]
            yield size, [place] + rng.sample(range(place, size), rng.randint(0, size - place))
    for s in SETS:
        for place in (0, s.N // 2, s.N - 1):
            yield s.N, [place]
            yield s.N, [place, s.N - 1]


def by_library(library, width, values, bound):
    lent = array(WIDTHS[width][0], values)
    function = getattr(library, width)
    function.restype = ctypes.c_size_t
    address, count = lent.buffer_info()
    return function(ctypes.c_void_p(address), ctypes.c_size_t(count), ctypes.c_uint32(bound))


def kind(values, index):
    return "none outside" if index == len(values) else "first" if index == 0 else "last" if index == len(values) - 1 else "between"


def run(seed, shared):
    """True when all agree."""
    library = ctypes.CDLL(str(shared)) if shared else None
    rng, kinds = Random(f"{seed} ranges"), Counter()
    for width in WIDTHS:
        for size, places in lists(rng):
            bound = rng.choice(bounds())
            values = make(rng, width, size, bound, places)
            wanted = first_outside(bound, values)
            found = by_library(library, width, values, bound) if library else wanted
            if found != wanted:
                print(f"ranges: DIFFERENCE: {width} gives {found}, reference {wanted}, of the bound {bound} and {values}")
                return False
            kinds[kind(values, wanted)] += 1
    print(f"ranges: {sum(kinds.values())} tests {'agree with the reference' if library else 'of the reference alone'}: "
          + ", ".join(f"{name} {count}" for name, count in sorted(kinds.items())) + f", seed {seed}")
    return len(kinds) == 4
