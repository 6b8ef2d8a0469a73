"""vectors/*.json, with which engineers test their own implementations: the files are what tests/make_vectors.py makes now, all kinds of cases are there,
and the kit does what they say. Calls go through the C library, sessions through the player, with inputs and expectations as they are stored."""

import json
import subprocess
from array import array
from collections import Counter
from random import Random

import make_vectors
from building import REPOSITORY
from c_library import GUARD, as_bytes, element, from_bytes
from compare_sessions import ACCEPTED_ROWS, REFUSED_ROWS, first_difference, form
from headers import declared
from reference import encodings
from reference.challenge import RULES
from reference.parameters import SETS

SESSIONS_FILE = "sessions.json"  # the others have calls of the library
NO_SETS, NO_RULES = ("set 5", "set 255"), tuple(f"given rule {number}" for number in (0, 3, 255))
EXPONENTS, INDICES = ("exponent 0", "exponent N", "equal exponents", "decreasing exponents"), ("index N", "equal indices", "decreasing indices")
COEFFICIENTS, POINTS = ("a coefficient too few", "a coefficient too many"), ("a point too few", "a point too many")
POLYNOMIALS = ("key", "mask", "x", "all -32768", "largest sum", "least sum", "upper end", "lower end")


def rooms(*results):
    return tuple(f"room for {result} one {size}" for result in results for size in ("short", "long"))


def lengths(encoding):
    return tuple(f"{encoding} {size}" for size in ("empty", "short", "long"))


# By entry and answer the kinds of cases that each set has, under each rule where the entry takes one.
KINDS = {
    "draw": {
        0: ("pool under rule 1", "pool under rule 2", "skip bound", "repeated index", "sign of the first drawn", "sign of the last drawn",
            *(f"last value of {length} bytes" for length in range(128, 513, 64))),
        11: ("spent by 64 bytes", "spent by 128 bytes", "spent by 512 bytes", "64 zeros", "512 zeros"),
        1: (*(f"pool of {length} bytes" for length in (0, 63, 65, 96, 511, 576)), *rooms("challenge"), "pool before 11", "room before 11"),
        2: (*NO_SETS, "2 before lengths")},
    "evaluate": {
        0: POLYNOMIALS, 2: (*NO_SETS, "2 before lengths"), 4: EXPONENTS,
        1: (*COEFFICIENTS, *POINTS, *rooms("evaluations"), "a point and room too few", "coefficients before 4", "points before 4", "room before 4")},
    "evaluate_all": {
        0: POLYNOMIALS, 1: (*COEFFICIENTS, *rooms("evaluations"), "room for t evaluations"), 2: (*NO_SETS, "2 before lengths")},
    "public_key": {
        0: ("key", "key of -1"),
        1: (*lengths("secret key"), *POINTS, *rooms("public_key"), "empty before 2", "secret key before 4", "points before 4", "room before 4"),
        2: (*NO_SETS, "2 before lengths"), 4: (*EXPONENTS, "4 before 5"), 5: ("key byte 02", "key byte FE")},
    "sign": {
        256: ("mask passes", "passes under this rule alone", "zeros", "empty message", "longest message"), 259: ("three passed over",),
        263: ("seven passed over",), 9: ("passes under the other rule alone", "none of two passes", "no mask"),
        1: ("message too long", *lengths("secret key"), *POINTS, "a mask number too few", "a mask number too many", "nine masks", *rooms("signature"),
            "message before 2", "secret key before 18", "points before 18", "masks before 18", "room before 18"),
        2: (*NO_SETS, "2 before lengths", "2 before 18"), 18: (*NO_RULES, "18 before 4"), 4: (*EXPONENTS, "4 before 5"),
        5: ("key byte 02", "key byte FE", "5 before 6"), 6: ("mask coefficient -k-1", "6 before 9")},
    "check": {
        256: ("yes", "z at k-b", "z at -(k-b)", "yes, zeros", "yes, empty message", "yes, longest message"),
        0: ("no, one bit of a challenge index", "no, one bit of a challenge sign", "no, one bit of a coefficient of z", "no, one bit of an evaluation",
            "no, one bit of an exponent", "no, one bit of the message", "no, another sign drawn", "no, another index drawn", "made under the other rule",
            "z at k-b+1", "z at -(k-b)-1", "z at -32768"),
        1: ("message too long", *lengths("public key"), *lengths("signature"), "message before 2", "empty key before 2", "empty signature before 2",
            "public key before 18", "signature before 18"),
        2: (*NO_SETS, "signature of set 5", "signature of set 255", "public key of another set", "signature of another set", "2 before lengths",
            "2 before 18"),
        18: (*NO_RULES, "18 before 4"), 4: (*EXPONENTS, "4 before 7"), 7: ("evaluation q", "evaluation 2^24-1", "7 before 12"),
        12: (*INDICES, "12 before a z out of range")},
    "read_secret_key": {
        0: ("key",), 1: (*lengths("secret key"), *rooms("coefficients"), "secret key before 5", "room before 5"), 2: (*NO_SETS, "2 before lengths"),
        5: ("key byte 02", "key byte FE")},
    "write_secret_key": {
        0: ("key",), 1: (*COEFFICIENTS, *rooms("secret_key"), "coefficients before 5", "room before 5"), 2: (*NO_SETS, "2 before lengths"),
        5: tuple(f"coefficient {value}" for value in (2, -2, 127, -128))},
    "read_public_key": {
        0: ("key",), 2: (*NO_SETS, "2 before lengths"), 4: (*EXPONENTS, "4 before 7"), 7: ("evaluation q", "evaluation 2^24-1"),
        1: (*lengths("public key"), *rooms("points", "evaluations"), "both rooms one short", "public key before 4", "room for points before 4",
            "room for evaluations before 4")},
    "write_public_key": {
        0: ("key",),
        1: (*POINTS, "an evaluation too few", "an evaluation too many", *rooms("public_key"), "a point and an evaluation too few", "points before 4",
            "evaluations before 4", "room before 4"),
        2: (*NO_SETS, "2 before lengths"), 4: (*EXPONENTS, "4 before 7"), 7: ("evaluation q", "evaluation 2^24", "evaluation 2^32-1")},
    "read_signature": {
        0: ("signature", "z out of range"), 2: (*NO_SETS, "2 before lengths"), 12: INDICES,
        1: (*lengths("signature"), *rooms("entries", "z"), "signature before 12", "room for entries before 12", "room for z before 12")},
    "write_signature": {
        0: ("signature", "z out of range"), 2: (*NO_SETS, "2 before lengths"), 12: INDICES,
        1: ("an entry too few", "an entry too many", "a coefficient of z too few", "a coefficient of z too many", *rooms("signature"), "entries before 12",
            "z before 12", "room before 12")},
}
TAKE_A_RULE = ("sign", "check")

# Kinds that some sets alone have: entry, set, kind and answer.
SOME_SETS = {("draw", 0, "worked case", 0), ("public_key", 0, "worked key", 0), ("evaluate", 0, "worked key", 0), ("evaluate_all", 0, "worked key", 0),
             *(("evaluate", 0, f"worked {what}, {which} of two", 0) for what in ("key", "mask") for which in ("first", "second")),
             *((f"{way}_public_key", 0, "worked key", 0) for way in ("read", "write")),
             *((f"{way}_signature", 0, "worked signature", 0) for way in ("read", "write")),
             *(("draw", number, "last value of 64 bytes", 0) for number in (0, 1, 2)),
             *(("sign", number, "mask coefficient k+1", 6) for number in (0, 1, 2)),
             *(("sign", 0, f"message of {length} bytes", 256) for length in (111, 112, 127, 128, 129))}

# Sessions: the kinds that each set has, and those that have none; the forms of rows that there are, and those that each set has.
SESSIONS_OF_EACH_SET = ("both rules", "masks passed over", "spent", "eight masks", "refusals", "forgetting", "checker", "no 00", "operand cut",
                        "13 before 10", "unknown command", "bytes after 00")
SESSIONS_WITHOUT_SET = ("empty file", "tag cut", "wrong tag", "tag alone", "00 alone", "rules alone", "01 refused", "14 before 3", "longest file",
                        "file too long", "1 before 15")
ALL_ROWS = ACCEPTED_ROWS | REFUSED_ROWS | {"14"}
ROWS_OF_EACH_SET = ACCEPTED_ROWS | {
    "01 2", "02 4", "03 10", "03 5", "04 8", "04 6", "06 10", "06 17", "06 9", "07 10", "07 12", "08 10", "08 7", "0A 10", "0B 18",
    "02 13", "03 13", "00 13 where a command is due", "14", "00 16"}

# By kind what a coefficient of z must be, and which end an evaluation.
Z_AT = {"z at k-b": lambda s: s.k - s.b, "z at -(k-b)": lambda s: s.b - s.k, "z at k-b+1": lambda s: s.k - s.b + 1,
        "z at -(k-b)-1": lambda s: s.b - s.k - 1, "z at -32768": lambda s: -32768}
ENDS = {"upper end": 1, "lower end": -1}


# ── The stored files ────────────────────────────────────────────────────────────────────────────

def decoded(value):
    """Bytes, or a list of numbers, of what a file has for them."""
    items = [(item["repeat"], item["times"]) if isinstance(item, dict) else (item, 1) for item in (value if isinstance(value, list) else [value])]
    if any(isinstance(item, str) for item, _ in items):
        return b"".join(bytes.fromhex(item) * times for item, times in items)
    return [item for item, times in items for _ in range(times)]


def kind_of(case):
    return case["name"].split(": ", 1)[1]


def report(file, case, text):
    print(f"vectors: DIFFERENCE in {file}, case '{case['name']}': {text}")


def are_made_now(texts):
    """Whether the stored texts, by file, are what the generator makes."""
    try:
        made = dict(make_vectors.files())
    except AssertionError as error:
        print(f"vectors: DIFFERENCE: tests/make_vectors.py makes nothing, since a case is not what it is for: {error}")
        return False
    for file in sorted(set(texts) | set(made)):
        if file not in made:
            print(f"vectors: DIFFERENCE in {file}: tests/make_vectors.py makes no such file; remove it")
            return False
        if texts.get(file) != made[file]:
            print(f"vectors: DIFFERENCE in {file}{where(texts.get(file, ''), made[file])}: not what the reference gives now; run tests/make_vectors.py")
            return False
    return True


def where(stored, made):
    """The first case that is not the same, in words; nothing where the stored text has none."""
    try:
        pairs = zip(json.loads(stored)["cases"], json.loads(made)["cases"])
        return next((f", case '{mine['name']}'" for mine, other in pairs if mine != other), "")
    except (ValueError, KeyError, TypeError):
        return ""


def example_is_stored(cases):
    """The case that vectors/README.md prints is one of them."""
    blocks = (make_vectors.FOLDER / "README.md").read_text().split("```json\n")[1:]
    if blocks and all(json.loads(block.split("```")[0]) in cases for block in blocks):
        return True
    print("vectors: DIFFERENCE in README.md: it prints no case, or one that is not stored")
    return False


# ── Coverage ────────────────────────────────────────────────────────────────────────────────────

def wanted_calls():
    """Entry, set, rule or None, kind and answer."""
    for entry, answers in KINDS.items():
        for s in SETS:
            for rule in RULES if entry in TAKE_A_RULE else (None,):
                yield from ((entry, s.number, rule, kind, answer) for answer, kinds in answers.items() for kind in kinds)
    for entry, number, kind, answer in SOME_SETS:
        yield from ((entry, number, rule, kind, answer) for rule in (RULES if entry in TAKE_A_RULE else (None,)))


def gaps_of_calls(calls):
    """What no case is, and what one is that nothing here asks for."""
    wanted = set(wanted_calls())
    found = {(case["entry"], case["set"], case.get("rule"), kind_of(case), case["expected"]["answer"]) for case in calls}
    for call in sorted(wanted ^ found, key=str):
        entry, number, rule, kind, answer = call
        text = f"{entry}, set {number}{f', rule {rule}' if rule else ''}: {kind}, with the answer {answer}"
        yield f"no case is '{text}'" if call in wanted else f"'{text}' is not in the list of kinds"


def gaps_of_sessions(sessions):
    examples = (f"example {path.stem}" for path in (REPOSITORY / "examples/sessions").glob("*.session"))
    wanted = {f"session: {kind}" for kind in (*SESSIONS_WITHOUT_SET, *examples)}
    wanted |= {f"session, set {s.number}: {kind}" for s in SETS for kind in SESSIONS_OF_EACH_SET}
    yield from (f"no case is '{name}'" for name in sorted(wanted - {case["name"] for case in sessions}))
    for number in (None, *(s.number for s in SETS)):
        seen = {form(row) for case in sessions if number in (None, case.get("set")) for row in case["expected"]["rows"]}
        for row in sorted((ALL_ROWS if number is None else ROWS_OF_EACH_SET) - seen):
            yield f"no session{'' if number is None else f' of set {number}'} has a row of form '{row}'"


def bits_apart(inputs, others):
    """In how many bits the inputs of two calls of check differ."""
    pairs = [(decoded(inputs[name]), decoded(others[name])) for name in ("public_key", "message", "signature")]
    return sum(bin(a ^ b).count("1") for one, other in pairs for a, b in zip(one, other)) + sum(len(one) != len(other) for one, other in pairs)


def is_as_named(case, by_name):
    """Of kinds that a slip of the generator could empty: z and evaluations at their ends, and calls of check one bit off a yes."""
    kind, s = kind_of(case), SETS[case["set"]]
    if kind in Z_AT:
        return Z_AT[kind](s) in encodings.read_signature(s, decoded(case["inputs"]["signature"])[1:])[1]
    if kind in ENDS:
        return ENDS[kind] * (s.q - 1) // 2 in decoded(case["expected"]["evaluations"])
    if kind.startswith("no, "):
        good = "yes" if "one bit" in kind else "yes, zeros"
        return bits_apart(case["inputs"], by_name[f"check, set {s.number}, rule {case['rule']}: {good}"]["inputs"]) == 1
    return True


def is_covered(calls, sessions):
    cases = [*calls, *sessions]
    by_name = {case["name"]: case for case in cases}
    gaps = [*gaps_of_calls(calls), *gaps_of_sessions(sessions)]
    gaps += [f"'{name}' is the name of {count} cases" for name, count in Counter(case["name"] for case in cases).items() if count > 1]
    if not gaps:
        gaps = [f"'{case['name']}' is not what it is called" for case in calls if not is_as_named(case, by_name)]
    for gap in gaps:
        print(f"vectors: NOT COVERED: {gap}")
    return not gaps


# ── Calls ───────────────────────────────────────────────────────────────────────────────────────

def arguments_by_entry():
    """By entry the arguments of include/passign.h, in their order and without the lengths: "number", "read" or "result"."""
    functions = declared((REPOSITORY / "include/passign.h").read_text())
    return {name[len("passign_"):]: {argument: "number" if kind == "uint8_t " else "read" if kind.startswith("const ") else "result"
                                     for kind, argument in arguments if kind != "size_t "} for name, (_, arguments) in functions.items()}


def right_rooms(calls):
    """The length of each result, by entry, set and name, from the calls that write it."""
    return {(case["entry"], case["set"], result): len(decoded(value))
            for case in calls for result, value in case["expected"].items() if result != "answer"}


def lent_name(entry, argument, kinds):
    """What c_library calls an argument."""
    if kinds[argument] == "result" and list(kinds.values()).count("result") == 1:
        return "out"
    return "key" if (entry, argument) == ("write_secret_key", "coefficients") else argument


def lent(case, kinds, rooms_of):
    """The arguments for c_library, where result buffers hold any numbers; and by argument every lent byte after the call, guards too."""
    entry, inputs, expected, rng = case["entry"], case["inputs"], case["expected"], Random(case["name"])
    arguments, after = {}, {}
    for argument, kind in kinds.items():
        name = lent_name(entry, argument, kinds)
        if kind == "number":
            arguments[name] = inputs[argument]
            continue
        if kind == "read":
            arguments[name] = left = decoded(inputs[argument])
        else:
            room = inputs.get(f"{argument}_length", rooms_of[entry, case["set"], argument])
            arguments[name] = from_bytes(entry, name, rng.randbytes(room * array(element(entry, name)).itemsize))
            left = decoded(expected[argument]) if argument in expected else arguments[name]
        after[argument] = GUARD + as_bytes(entry, name, left) + GUARD
    return arguments, after


def difference(case, kinds, rooms_of, kit_call):
    """What the kit does otherwise than the case says, as a line of text; None where it agrees."""
    needed = {argument for argument, kind in kinds.items() if kind != "result"}
    if not needed <= set(case["inputs"]) <= needed | {f"{argument}_length" for argument in kinds}:
        return f"its inputs are {', '.join(case['inputs'])}, the arguments of include/passign.h {', '.join(kinds)}"
    arguments, wanted = lent(case, kinds, rooms_of)
    answer, after = kit_call(case["entry"], arguments)
    if answer != case["expected"]["answer"]:
        return f"the kit answers {answer}, stored is {case['expected']['answer']}"
    for argument, content in wanted.items():
        found = after[lent_name(case["entry"], argument, kinds)]
        if found != content:
            at = next((i for i, (a, b) in enumerate(zip(found, content)) if a != b), min(len(found), len(content)))
            return (f"the kit answers {answer}, but leaves {found[at:at + 4].hex().upper()} at byte {at - len(GUARD)} of {argument}, "
                    f"where {content[at:at + 4].hex().upper()} is due")
    return None


def calls_agree(by_file, kit_call):
    entries, rooms_of = arguments_by_entry(), right_rooms([case for cases in by_file.values() for case in cases])
    for file, cases in by_file.items():
        for case in cases:
            text = difference(case, entries[case["entry"]], rooms_of, kit_call)
            if text:
                report(file, case, text)
                return False
    return True


# ── Sessions ────────────────────────────────────────────────────────────────────────────────────

def sessions_agree(cases, player):
    for case in cases:
        done = subprocess.run([player], input=decoded(case["inputs"]["file"]), stdout=subprocess.PIPE)
        wanted = "".join(f"{row}\n" for row in case["expected"]["rows"]).encode()
        if done.stdout != wanted or done.returncode != 0:
            report(SESSIONS_FILE, case, f"{first_difference(done.stdout, wanted)}; exit status {done.returncode}")
            return False
    return True


def run(kit_call, player):
    """True when all agree. Without kit_call and player the files are held to the reference alone."""
    texts = {path.name: path.read_text() for path in sorted(make_vectors.FOLDER.glob("*.json"))}
    if not are_made_now(texts):
        return False
    cases = {file: json.loads(text)["cases"] for file, text in texts.items()}
    sessions, calls = cases.pop(SESSIONS_FILE), [case for each in cases.values() for case in each]
    agree = example_is_stored(calls) and is_covered(calls, sessions)
    agree = agree and (kit_call is None or calls_agree(cases, kit_call)) and (player is None or sessions_agree(sessions, player))
    if agree:
        print(f"vectors: {len(calls)} cases of {len(cases)} files agree with {'the C library' if kit_call else 'the reference alone'}, "
              f"{len(sessions)} sessions with {'the player' if player else 'the reference alone'}")
    return agree
