"""Request #106 as a reader finds it: the rule in force at each 06 and 07 of a session, from the commands in its file and what their rows say alone.

It is the operand of the last accepted 0B, and 1 before any. Under it, with what the accepted commands before it loaded, the check says yes to the signature
in the row of a 06, which is of the first mask held that passes, and gives the verdict in the row of a 07. Neither is refused with 10 for what 0B carries over.
"""

from commands_played import commands
from material import other_rule
from reference import encodings, signing
from reference.challenge import LOW_BYTE_RULE, RULES
from reference.parameters import SETS
from reference.polynomials import evaluation_residues

NO_MASK_PASSES, NOT_HELD, NONE_LEFT, WRONG_RULE = 9, 10, 17, 18
NEEDED = {0x06: ("points", "key", "message"), 0x07: ("points", "evaluations", "message")}
HOW_IN_FORCE = ("by an 0B before any set", "after 01", "after 18", "with all carried over by 0B")
BY_RULE = ("yes under {0} to one made under {0}", "no under {0} to one made under {1}", "passed over under {0}, passes under {1}",
           "9 under {0} with a mask that passes under {1}", "17 under {0} with the grant carried over by 0B")
SITUATIONS = {f"{command} under {rule} {how}" for command in ("06", "07") for rule in RULES for how in HOW_IN_FORCE}
SITUATIONS |= {situation.format(rule, other_rule(rule)) for situation in BY_RULE for rule in RULES}
SITUATIONS |= {"06 under 1 before any 0B", "07 under 1 before any 0B", "0B for the rule in force", "18 for 0", "18 for 3", "18 for 255", "18 before any set"}


class Reader:
    def __init__(self):
        self.rule, self.set, self.held = LOW_BYTE_RULE, None, {}
        self.masks = []
        self.changes, self.loaded = 0, {}  # how often the rule changed, and how often it had when a thing was loaded
        self.since = {"before any 0B"}  # of HOW_IN_FORCE, what is true of the last accepted 0B
        self.made = {}  # the rule under which a signature of this session was made
        self.seen = set()

    def saw(self, situation, holds=True):
        if holds:
            self.seen.add(situation)

    def saw_in_force(self, at, *things):
        for how in self.since:
            self.saw(f"{at} {how}")
        self.saw(f"{at} with all carried over by 0B", all(self.loaded[thing] < self.changes for thing in things))

    def load(self, thing, value):
        self.held[thing], self.loaded[thing] = value, self.changes

    def forget(self, *things):
        for thing in things:
            self.held.pop(thing, None)

    def choose(self, operand, number):
        """An 0B: why its row is wrong, or None."""
        if operand[0] not in RULES:
            self.saw(f"18 for {operand[0]}")
            self.saw("18 before any set", self.set is None)
            self.since.add("after 18")
            return None if number == WRONG_RULE else f"{operand[0]} is no rule"
        self.saw("0B for the rule in force", operand[0] == self.rule)
        self.changes += operand[0] != self.rule
        self.rule, self.since = operand[0], {"by an 0B before any set"} if self.set is None else set()
        return None if number == 0 else f"{operand[0]} is a rule"

    def verdict(self, signature):
        entries, z = encodings.read_signature(self.set, signature)
        challenge = encodings.challenge_of(self.set, entries)
        return signing.check(self.set, self.held["points"], self.held["evaluations"], self.held["message"], challenge, z, self.rule)

    def passes(self, mask, rule):
        return signing.try_mask(self.set, self.held["key"], self.held["points"], mask, self.held["message"], rule) is not None

    def passed_over(self, masks, situation):
        """Why one of these masks is not passed over, or None."""
        for mask in masks:
            if self.passes(mask, self.rule):
                return f"a mask before it passes under rule {self.rule}"
            self.saw(situation, self.passes(mask, other_rule(self.rule)))
        return None

    def signed(self, passed_over, signature):
        """An accepted 06: why its row is wrong, or None."""
        before, (mask, self.loaded["mask"]) = self.masks[:passed_over], self.masks[passed_over]
        self.masks = self.masks[passed_over + 1:]
        self.saw_in_force(f"06 under {self.rule}", "mask", *NEEDED[0x06])
        self.made[signature] = self.rule
        entries, z = encodings.read_signature(self.set, signature[1:])
        if signature[0] != self.set.number or z != signing.point(self.set, self.held["key"], encodings.challenge_of(self.set, entries), mask):
            return "its signature is not of the set, key and mask held"
        if not self.verdict(signature[1:]):
            return f"under rule {self.rule} the check says no to its signature"
        return self.passed_over([each for each, _ in before], f"passed over under {self.rule}, passes under {other_rule(self.rule)}")

    def six(self, number, fields):
        if number == 0:
            return self.signed(int(fields[0]), bytes.fromhex(fields[1]))
        if number == NO_MASK_PASSES:
            masks, self.masks = [each for each, _ in self.masks], []
            return self.passed_over(masks, f"9 under {self.rule} with a mask that passes under {other_rule(self.rule)}")
        self.saw(f"17 under {self.rule} with the grant carried over by 0B", number == NONE_LEFT and self.loaded["grant"] < self.changes)
        return None

    def seven(self, operand, verdict):
        """An accepted 07: why its row is wrong, or None."""
        self.saw_in_force(f"07 under {self.rule}", *NEEDED[0x07])
        yes, made = self.verdict(operand), self.made.get(bytes([self.set.number]) + operand)
        self.saw(f"{'yes' if yes else 'no'} under {self.rule} to one made under {made}", made)
        return None if verdict == str(int(yes)) else f"under rule {self.rule} the verdict is {int(yes)}"

    def loads(self, command, operand):
        """An accepted 01, 02, 03, 04, 05, 08 or 0A."""
        if command == 0x01:
            self.set, self.held, self.masks = SETS[operand[0]], {}, []
            if "before any 0B" not in self.since:
                self.since.add("after 01")
        elif command == 0x02:
            self.load("points", encodings.numbers(operand, 2))
            self.forget("key", "evaluations")
        elif command == 0x03:
            self.load("key", encodings.read_key(operand))
            self.load("evaluations", evaluation_residues(self.set, self.held["key"], self.held["points"]))
        elif command == 0x04:
            self.masks.append((encodings.numbers(operand, 2, signed=True), self.changes))
        elif command == 0x05:
            self.load("message", operand)
        elif command == 0x08:
            self.load("evaluations", encodings.numbers(operand, 3))
            self.forget("key")
        elif command == 0x0A:
            self.load("grant", operand)

    def play(self, command, operand, number, fields):
        """Why a row is wrong, or None."""
        if command == 0x0B:
            return self.choose(operand, number)
        if number == WRONG_RULE:
            return "18 is of 0B alone"
        if number == NOT_HELD and command in NEEDED and all(thing in self.held for thing in NEEDED[command]):
            return "all that it needs is held"
        if command == 0x06:
            return self.six(number, fields)
        if number:
            return None
        return self.seven(operand, fields[0]) if command == 0x07 else self.loads(command, operand)


def read(file, rows):
    """The situations met, and the first row that the rule in force does not allow, or None."""
    reader = Reader()
    for row, *played in commands(file, rows):
        fault = reader.play(*played)
        if fault:
            return reader.seen, f"row '{row[:40]}': {fault}"
    return reader.seen, None
