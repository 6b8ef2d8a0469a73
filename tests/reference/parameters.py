"""Document 01, "The parameter sets"."""

from functools import lru_cache
from typing import NamedTuple


class ParameterSet(NamedTuple):
    number: int
    N: int
    q: int
    g: int
    k: int
    b: int
    t: int


SETS = (
    ParameterSet(0, 5, 31, 2, 6, 2, 2),
    ParameterSet(1, 433, 775937, 268673, 4095, 19, 200),
    ParameterSet(2, 577, 743177, 296108, 16383, 24, 280),
    ParameterSet(3, 769, 1047379, 421722, 32767, 29, 386),
    ParameterSet(4, 1153, 968521, 56574, 32767, 36, 600),
)


@lru_cache(maxsize=None)
def powers(s):
    """The N powers of g: entry 0 is 1, each next one is the one before times g modulo q."""
    table = [1]
    while len(table) < s.N:
        table.append(table[-1] * s.g % s.q)
    return tuple(table)


def is_sound(s):
    """The rule of the powers, and the bounds that encodings and drawer rely on."""
    table = powers(s)
    last_times_g_is_1 = table[-1] * s.g % s.q == 1
    powers_differ = len(set(table)) == s.N
    fits = s.q <= 1 << 24 and s.N <= 1 << 15 and s.k <= 32767
    return last_times_g_is_1 and powers_differ and fits and s.t < s.N and s.b <= min(s.N, s.k, 64)
