"""Session files, with the rows that playing them prints."""

from random import Random

import sessions
from building import REPOSITORY
from damages import put
from reference import encodings
from reference.challenge import LOW_BYTE_RULE
from reference.parameters import SETS
from reference.polynomials import evaluation_residues
from reference.session import MOST_FILE_BYTES, TAG_BYTES, operand_length, play_to_the_end

from .case import LONG_RUN, shown
from .common import blank, exponent_N, signature, signer, with_index_N, wrong_points
from .sign import small_mask, three_then_one

END = (0x00,)
SIGN = (0x06,)


def outcome(row):
    """A row's number; of a 06 that signs the number passed over, of a 07 that judges its verdict."""
    _, command, number, *fields = row.split(" ")
    return {"06": f"+{fields[0]}", "07": {"1": "yes", "0": "no"}.get(fields[0])}.get(command, number) if fields else number


def session_case(s, what, comment, outcomes, file):
    name, of_set = (f"session, set {s.number}: {what}", {"set": s.number}) if s else (f"session: {what}", {})
    rows = play_to_the_end(file).decode().splitlines()
    given = " ".join(map(outcome, rows))
    assert outcomes in (None, given), f"{name}: the reference gives {given}, not {outcomes}"
    tags = len(file) // len(TAG_BYTES)
    whole = {"repeat": TAG_BYTES.hex().upper(), "times": tags} if tags > LONG_RUN and file == TAG_BYTES * tags else shown(file)
    return {"name": name, "comment": comment, "entry": "session", **of_set, "inputs": {"file": whole}, "expected": {"rows": rows}}


def written(s, *commands):
    """A writer that has played these, each a command and its operand."""
    w = sessions.Writer(Random("vectors"), s)
    for command in commands:
        w.add(*command)
    return w


def two_bytes(values):
    return encodings.number_bytes(values, 2, signed=True)


def loads(s, who):
    """01, 02, 03 and 05."""
    return (0x01, bytes([s.number])), (0x02, two_bytes(who.at)), (0x03, encodings.write_key(who.f)), (0x05, who.text)


def evaluations_command(s, who):
    return 0x08, encodings.number_bytes(evaluation_residues(s, who.f, who.at), 3)


def both_rules(s):
    masks = [(0x04, two_bytes(y)) for y in (signer(s).y, small_mask(Random(f"vectors: second mask of set {s.number}"), s))]
    w = written(s, (0x0B, b"\2"), *loads(s, signer(s)), *masks, SIGN)
    for rule in (1, 2):
        check = (0x07, w.signature)
        for command in (check, (0x0B, bytes([rule])), check):
            w.add(*command)
        w.add(*(SIGN if rule == 1 else END))
    return bytes(w.file)


def masks_passed_over(s):
    masks = [(0x04, two_bytes(y)) for y in three_then_one(s, LOW_BYTE_RULE)]
    return bytes(written(s, *loads(s, signer(s)), *masks, SIGN, (0x04, bytes(2 * s.N)), SIGN, SIGN, masks[0], SIGN, masks[3], SIGN, END).file)


def spent(s):
    set_chosen, points, key, message = loads(s, signer(s))
    none, one, mask = (0x0A, b"\0\0"), (0x0A, b"\0\1"), (0x04, two_bytes(signer(s).y))
    return bytes(written(s, set_chosen, points, one, key, none, SIGN, message, SIGN, mask, SIGN, one, SIGN, SIGN, key, SIGN, END).file)


def eight_masks(s):
    set_chosen, *others = loads(s, blank(s))
    mask, wrong_mask = (0x04, bytes(2 * s.N)), (0x04, two_bytes(put([0] * s.N, 0, -s.k - 1)))
    return bytes(written(s, set_chosen, *[mask] * 9, wrong_mask, *others, SIGN, mask, mask, END).file)


def refusals(s):
    (set_chosen, points, key, message), zeros = loads(s, signer(s)), signature(s, blank(s), LOW_BYTE_RULE)
    no_set, no_rules, mask = (0x01, b"\5"), ((0x0B, b"\0"), (0x0B, b"\3")), (0x04, bytes(2 * s.N))
    wrong_points, wrong_key = (0x02, two_bytes(exponent_N(s))), (0x03, put(bytes(s.N), 0, 2))
    wrong_mask, wrong_evaluation = (0x04, two_bytes(put([0] * s.N, 0, -s.k - 1))), (0x08, bytes(3 * s.t - 3) + s.q.to_bytes(3, "big"))
    check, wrong_index = (0x07, zeros[1:]), (0x07, with_index_N(s, zeros)[1:])
    w = written(s, no_set, *no_rules, set_chosen, key, wrong_key, (0x08, bytes(3 * s.t)), wrong_evaluation, SIGN, check, wrong_index, (0x0A, b"\0\1"))
    for command in (wrong_points, points, key, message, mask, no_set, *no_rules, wrong_points, wrong_key, wrong_mask, wrong_evaluation, wrong_index):
        w.add(*command)
    for command in (SIGN, SIGN, (0x0A, b"\0\0"), SIGN, END):
        w.add(*command)
    return bytes(w.file)


def forgetting(s):
    (set_chosen, points, key, message), mask = loads(s, signer(s)), (0x04, bytes(2 * s.N))
    evaluations, check = evaluations_command(s, signer(s)), (0x07, signature(s, signer(s), LOW_BYTE_RULE)[1:])
    w = written(s, set_chosen, points, key, message, mask, points, SIGN, check, key, SIGN)
    for command in (mask, evaluations, SIGN, check, key, SIGN, mask, set_chosen, (0x03, bytes(s.N)), points, key, SIGN, message, SIGN, END):
        w.add(*command)
    return bytes(w.file)


def checker(s):
    set_chosen, points, _, message = loads(s, signer(s))
    check = (0x07, signature(s, signer(s), LOW_BYTE_RULE)[1:])
    return bytes(written(s, set_chosen, points, evaluations_command(s, signer(s)), message, check, SIGN, (0x0A, b"\0\1"), points, check, END).file)


def sessions_of(s):
    """What it is, what it shows, the outcome of each row, and the file: here and below."""
    start = TAG_BYTES + bytes([0x01, s.number])
    yield ("both rules", "0B before any set, which 01 leaves in force; a 06 under rule 2 and one under rule 1; each signature is judged under both, with "
           "a yes under its own.", "0 0 0 0 0 0 0 +0 yes 0 no +0 yes 0 no 0", both_rules(s))
    yield ("masks passed over", "Under rule 1, with which a session opens: three masks are passed over and the fourth signs, as in sign's case, and all "
           "four are dropped; 06 is 9 with no mask held, and with one that fails, which is dropped too.",
           "0 0 0 0 0 0 0 0 +3 0 +0 9 0 9 0 +0 0", masks_passed_over(s))
    yield ("spent", "0A without a key is 10; 06 is 10, then 17 without a mask, and with one, which is kept; a grant of 1 gives one signature; 03 loads "
           "the key anew, and 06 is 9.", "0 0 10 0 0 10 0 17 0 17 0 +0 17 0 9 0", spent(s))
    yield ("eight masks", "04 needs no key; the ninth mask is 8, good or not, and a 06 makes room for one.",
           "0 0 0 0 0 0 0 0 0 8 8 0 0 0 +0 0 8 0", eight_masks(s))
    yield ("refusals", "Each refusal but 8 after which a session goes on: 10 comes before 5, 7 and 12, and what is refused leaves what is held, so that "
           "a 06 signs.", "2 18 18 0 10 10 10 10 10 10 10 10 4 0 0 0 0 2 18 18 4 5 6 7 12 +0 9 0 17 0", refusals(s))
    yield ("forgetting", "02 forgets the key and the evaluations, 08 the key, and both leave message and mask; 01 forgets points, message and mask too.",
           "0 0 0 0 0 0 10 10 0 +0 0 0 10 yes 0 +0 0 0 10 0 0 10 0 9 0", forgetting(s))
    yield "checker", "08 in the place of a key: 07 judges, 06 and 0A are 10, and 02 forgets the evaluations.", "0 0 0 0 yes 10 10 0 10 0", checker(s)
    yield "no 00", "The file ends where a command is due.", "0 13", start
    yield "operand cut", "The last byte of an operand is missing.", "0 13", start + b"\x02" + two_bytes(signer(s).at)[:-1]
    yield "13 before 10", "03 without points, and cut.", "0 13", start + b"\x03" + bytes(s.N - 1)
    yield "unknown command", "There is no command 09, and it ends the session.", "0 14", start + b"\x09\0"
    yield "bytes after 00", "00 is the last byte of a file.", "0 16", start + b"\0\0"


def operands_cut(s):
    """Each command's, by one byte."""
    for command in (*range(1, 6), 7, 8, 0x0A, 0x0B):
        file = TAG_BYTES + bytes([1, s.number, command]) + bytes(operand_length(s, command) - 1)
        yield f"{command:02X} cut", f"The last byte of the operand of {command:02X} is missing.", "0 13", file


def sessions_without_set():
    yield "empty file", "There is no tag.", "15", b""
    yield "tag cut", "Three bytes of the tag.", "15", TAG_BYTES[:3]
    yield "wrong tag", "A session opens with 50 53 47 31.", "15", b"PSG2\0"
    yield "tag alone", "The file ends where a command is due.", "13", TAG_BYTES
    yield "00 alone", "00 needs no set.", "0", TAG_BYTES + b"\0"
    yield ("rules alone", "0B needs no set; a rule other than 1 or 2 is 18, and the session goes on.", "0 18 18 18 0 0",
           TAG_BYTES + b"\x0b\2\x0b\0\x0b\3\x0b\xff\x0b\1\0")
    for command in (*range(2, 9), 0x0A):
        yield f"{command:02X} before 01", "It needs a set: 3, also where its operand is not there.", "3", TAG_BYTES + bytes([command])
    yield "01 refused", "Set 5 is 2, and no set is chosen.", "2 3", TAG_BYTES + b"\1\5\5" + bytes(64) + b"\0"
    yield "14 before 3", "09 is no command, with a set or without.", "14", TAG_BYTES + b"\x09"
    yield "longest file", "65,536 bytes, the tag again and again, are not too many: 50 is no command.", "14", TAG_BYTES * (MOST_FILE_BYTES // 4)
    yield "file too long", "65,540 bytes, the tag again and again.", "1", TAG_BYTES * (MOST_FILE_BYTES // 4 + 1)
    yield "1 before 15", "65,537 zeros: too long, and without a tag.", "1", bytes(MOST_FILE_BYTES + 1)


def session_cases():
    for file in sorted((REPOSITORY / "examples/sessions").glob("*.session")):
        yield session_case(None, f"example {file.stem}", f"The file examples/sessions/{file.name}.", None, file.read_bytes())
    for made in sessions_without_set():
        yield session_case(None, *made)
    for made in operands_cut(SETS[0]):
        yield session_case(SETS[0], *made)
    for s in SETS:
        for made in sessions_of(s):
            yield session_case(s, *made)
