"""Exactly b: the challenge of every accepted call that draws, reads, writes or makes one, counted from the bytes of the call."""

from collections import Counter

import material
from c_library import GUARD, from_bytes
from reference import encodings
from reference.parameters import SETS


def written(call, after, name):
    return from_bytes(call.entry, name, after[name][len(GUARD):-len(GUARD)])


def in_entries(s, entries):
    return s, encodings.challenge_of(s, entries)


def in_signature(signature):
    s = SETS[signature[0]]
    return in_entries(s, encodings.read_signature(s, bytes(signature[1:]))[0])


# the set and the challenge, by the entry, of a call and the lent slices after it
CHALLENGES = {
    "draw": lambda call, after: (SETS[call.arguments["set"]], written(call, after, "out")),
    "sign": lambda call, after: in_signature(written(call, after, "out")),
    "check": lambda call, after: in_signature(call.arguments["signature"]),
    "read_signature": lambda call, after: in_entries(SETS[call.arguments["signature"][0]], written(call, after, "entries")),
    "write_signature": lambda call, after: in_signature(written(call, after, "out")),
}


class Challenges:
    def __init__(self):
        self.counts, self.pools = Counter(), set()

    def add(self, call, after):
        """What is wrong with the challenge of an accepted call, as a line of text; None where nothing is."""
        if call.entry not in CHALLENGES:
            return None
        s, c = CHALLENGES[call.entry](call, after)
        self.counts[call.entry] += 1
        if call.entry == "draw":
            self.pools.add((s.number, len(call.arguments["pool"])))
        found = Counter(c)
        if found[1] + found[-1] == s.b and found[0] == s.N - s.b and len(c) == s.N:
            return None
        return f"its challenge has {len(c)} coefficients, by value {dict(found)}, where {s.b} of {s.N} are 1 or -1 and the rest 0"

    def missing(self):
        """Pools that have room for b values and of which none yielded a challenge."""
        return [f"draw in set {s.number} never yields a challenge from {length} bytes" for s in SETS for length in material.POOL_LENGTHS
                if 8 + 2 * s.b <= length and (s.number, length) not in self.pools]

    def print(self):
        print("challenges: exactly b coefficients are not 0: " + ", ".join(f"{entry} {count}" for entry, count in sorted(self.counts.items())))
