"""Each call in the kit and in the reference: the answer and every lent byte must agree."""

from collections import Counter, defaultdict

import library_calls
from c_library import GUARD, NUMBERS, as_bytes, from_bytes
from challenge_weight import Challenges
from reference import library
from reference.challenge import RULES
from reference.parameters import SETS

REFUSALS = {"evaluate": {2, 1, 4}, "evaluate_all": {2, 1}, "draw": {2, 1, 11}, "public_key": {1, 2, 4, 5},
            "sign": {1, 2, 18, 4, 5, 6, 9}, "check": {1, 2, 18, 4, 7, 12},
            "read_secret_key": {1, 2, 5}, "write_secret_key": {2, 1, 5},
            "read_public_key": {1, 2, 4, 7}, "write_public_key": {2, 1, 4, 7},
            "read_signature": {1, 2, 12}, "write_signature": {2, 1, 12}}
ACCEPTED = {"sign": {256}, "check": {0, 256}}  # 0 for all others
ALL_PASSED_OVER = set(range(256, 264))
EVALUATORS = ("evaluate", "evaluate_all")
TAKE_A_RULE, NO_RULES = ("sign", "check"), (0, 3, 255)


def writable(name, values):
    """A copy of what the reference may write: "out", and lists. Encodings and messages that it reads stay bytes."""
    return list(values) if name == "out" or isinstance(values, list) else values


def expected(call):
    """The reference's answer, and the guarded bytes of each lent slice after the call."""
    lent = {name: writable(name, values) for name, values in call.arguments.items()}
    answer = getattr(library, call.entry)(*lent.values())
    after = {name: GUARD + as_bytes(call.entry, name, values) + GUARD
             for name, values in lent.items() if name not in NUMBERS}
    return answer, after


def difference(call, kit_call, answer, after):
    """What the kit does otherwise than the reference, as a line of text; None where it agrees."""
    kit_answer, kit_after = kit_call(call.entry, call.arguments)
    if kit_answer != answer:
        return f"answer {kit_answer}, reference {answer}"
    for name, content in after.items():
        if kit_after[name] != content:
            at = next(i for i, (a, b) in enumerate(zip(kit_after[name], content)) if a != b)
            return (f"answer {answer}, but byte {at - len(GUARD)} of {name} is "
                    f"{kit_after[name][at]:02X}, reference {content[at]:02X}")
    return None


def short(values):
    if isinstance(values, int):
        return str(values)
    text = values.hex() if isinstance(values, bytes) else str(values)
    return f"{len(values)} of {text[:60]}{'…' if len(text) > 60 else ''}"


def report(call, seed, text):
    print(f"library: DIFFERENCE in passign_{call.entry}: {text}")
    for name, values in call.arguments.items():
        print(f"  {name}: {short(values)}")
    print(f"  seed {seed}; replay: tests/run --seed {seed} --call '{call.name}'")


def ends_in(s, entry, after):
    """Which ends of the signed form, (q-1)/2 and -(q-1)/2, an accepted call of an evaluator wrote."""
    written = from_bytes(entry, "out", after["out"][len(GUARD):-len(GUARD)])
    return {value for value in written if 2 * abs(value) == s.q - 1}


def missing(counts, ends):
    """What no call gave: each answer of each entry in each set, both ends of an evaluation in each, and each passed-over number in all."""
    gaps = [f"{entry} in set {s.number} never writes {end}" for entry in EVALUATORS for s in SETS
            for end in sorted({(s.q - 1) // 2, -(s.q - 1) // 2} - ends[entry, s.number])]
    for entry in REFUSALS:
        for s in SETS:
            for answer in sorted((REFUSALS[entry] | ACCEPTED.get(entry, {0})) - set(counts[entry, s.number])):
                gaps.append(f"{entry} in set {s.number} never answers {answer}")
    gaps += [f"sign in set {s.number} passes no mask over" for s in SETS
             if max(counts["sign", s.number], default=0) <= 256]
    signed = set().union(*(counts["sign", s.number] for s in SETS))
    return gaps + [f"sign never answers {answer}" for answer in sorted(ALL_PASSED_OVER - signed)]


def missing_by_rule(by_rule):
    """What no call gave under a rule: each answer; and in each set those that accept. For what is no rule 18 and those before it; and in each set 18."""
    gaps = []
    for entry in TAKE_A_RULE:
        for rule in (*RULES, *NO_RULES):
            everywhere = REFUSALS[entry] - {18} | ACCEPTED[entry] if rule in RULES else {1, 2, 18}
            in_each = ACCEPTED[entry] if rule in RULES else {18}
            found = {s.number: set(by_rule.get((entry, rule, s.number), ())) for s in SETS}
            gaps += [f"{entry} under rule {rule} never answers {answer}" for answer in sorted(everywhere - set().union(*found.values()))]
            gaps += [f"{entry} under rule {rule} in set {number} never answers {answer}" for number in found for answer in sorted(in_each - found[number])]
    return gaps


def print_rules(by_rule):
    given = defaultdict(Counter)
    for (entry, rule, _), answers in by_rule.items():
        given[entry][rule] += sum(answers.values())
    for entry, rules in given.items():
        print(f"  {entry} is given the rules " + ", ".join(f"{rule}: {count}" for rule, count in sorted(rules.items())))


def print_counts(counts):
    for entry in REFUSALS:
        total = sum((counts[entry, s.number] for s in SETS), Counter())
        answers = ", ".join(f"{answer}: {count}" for answer, count in sorted(total.items()))
        if answers:
            print(f"  {entry} answers {answers}")


def run(seed, kit_call, only=None):
    """True when all agree. Without kit_call the reference runs alone, for the coverage."""
    counts, by_rule, ends, challenges = defaultdict(Counter), defaultdict(Counter), defaultdict(set), Challenges()
    for name in [only] if only else library_calls.names():
        call = library_calls.make(seed, name)
        answer, after = expected(call)
        number = int(name.split("/")[1])
        counts[call.entry, number][answer] += 1
        if call.entry in TAKE_A_RULE:
            by_rule[call.entry, call.arguments["rule"], number][answer] += 1
        if call.entry in EVALUATORS and answer == 0:
            ends[call.entry, number] |= ends_in(SETS[number], call.entry, after)
        text = difference(call, kit_call, answer, after) if kit_call else None
        if not text and answer not in REFUSALS[call.entry]:
            text = challenges.add(call, after)
        if text:
            report(call, seed, text)
            return False
    gaps = [] if only else missing(counts, ends) + missing_by_rule(by_rule) + challenges.missing()
    for gap in gaps:
        print(f"library: NOT COVERED: {gap}")
    print_counts(counts)
    print_rules(by_rule)
    challenges.print()
    called = sum(sum(count.values()) for count in counts.values())
    against = "agree with the reference" if kit_call else "of the reference alone"
    print(f"library: {called} calls {against}, seed {seed}")
    return not gaps
