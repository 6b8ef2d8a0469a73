"""The parameter sets, as far as the sizes of operands and the range of z need them."""

from typing import NamedTuple


class ParameterSet(NamedTuple):
    number: int
    N: int
    q: int
    g: int
    k: int
    b: int
    t: int

    @property
    def readme_row(self):
        return f"| {' | '.join(map(str, self))} |"


SETS = (
    ParameterSet(0, 5, 31, 2, 6, 2, 2),
    ParameterSet(1, 433, 775937, 268673, 4095, 19, 200),
    ParameterSet(2, 577, 743177, 296108, 16383, 24, 280),
    ParameterSet(3, 769, 1047379, 421722, 32767, 29, 386),
    ParameterSet(4, 1153, 968521, 56574, 32767, 36, 600),
)
