#!/usr/bin/env python3
"""Writes examples/: the same bytes each time.

sessions/: document 01's session, and for each set one in which a mask is passed over, a signature is accepted and the check says yes; key-life
shows what 0A does, rules what 0B does. Each NAME.session has its rows beside it, NAME.rows, as the reference plays it.
marker/: a public key, a message and two signatures of set 1: the check says yes to `signature` under rule 1, and to `signature-rule-2` under rule 2.
texts/: set-1.txt packs to sessions/set-1.session, with its numbers in the files of set-1/ (first.txt is written by hand).
sign/: the secret key of that public key, its points, the message, and three masks, of which under rule 1 the first is passed over and the second signs.
"""

import sys
from pathlib import Path
from random import Random

sys.dont_write_bytecode = True
TESTS = Path(__file__).resolve().parent
sys.path.insert(0, str(TESTS))

import commands_played  # noqa: E402
import material  # noqa: E402
import sessions  # noqa: E402
from reference import encodings  # noqa: E402
from reference.challenge import LOW_BYTE_RULE, THREE_BYTE_RULE  # noqa: E402
from reference.parameters import SETS  # noqa: E402
from reference.session import play_to_the_end  # noqa: E402
from reference.test_document import TRANSCRIPT_FILE  # noqa: E402


def signed_and_checked(s):
    w = sessions.begun(Random(f"example of set {s.number}"), s)
    held = w.session
    for y in (material.failing_mask(w.rng, s, held.key, held.points, held.message, held.rule), material.passing_mask(w.rng, s)):
        w.add(0x04, encodings.number_bytes(y, 2, signed=True))
    w.add(0x06)
    w.add(0x07, w.signature)
    w.add(0x00)
    return bytes(w.file)


def life_of_a_key(file):
    """Of a session of set 0: what it loads, with grants of 0A between; 06 is 10, 17, 9, and signs once."""
    start, key, message, masks = file[:11], file[11:17], file[17:82], file[82:104]
    wrong_key = key[:1] + b"\x02" + key[2:]
    none, one, sign = b"\x0a\0\0", b"\x0a\0\1", b"\x06"
    return b"".join((start, one, key, none, sign, message, sign, masks, sign, wrong_key, sign, one, sign, sign, key, sign, b"\0"))


def add_all(w, *commands):
    for command, operand in commands:
        w.add(command, operand)


def under_each_rule(file):
    """With what a session of set 0 loads: 0B before any set, which 18 and 01 leave in force; a 06 under each rule, the masks held before both; each
    signature checked under both rules. The mask that signs under 2 would be passed over under 1."""
    w = sessions.Writer(Random("example of the rules"), SETS[0])
    points, key, message, mask = (0x02, file[7:11]), (0x03, file[12:17]), (0x05, file[18:82]), (0x04, file[94:104])
    one, two, none = (0x0B, b"\1"), (0x0B, b"\2"), (0x0B, b"\3")
    add_all(w, two, none, (0x01, b"\0"), points, key, message)
    held = w.session
    y = material.mask_passing_alone(w.rng, held.set, held.key, held.points, held.message, THREE_BYTE_RULE)
    add_all(w, (0x04, encodings.number_bytes(y, 2, signed=True)), mask, (0x06, b""))
    made_under_two = (0x07, w.signature)
    add_all(w, made_under_two, one, made_under_two, (0x06, b""))
    made_under_one = (0x07, w.signature)
    public = (0x08, encodings.number_bytes(held.evaluations, 3))
    add_all(w, made_under_one, two, made_under_one, (0x01, b"\0"), points, public, message, made_under_two, (0x00, b""))
    return bytes(w.file)


def examples():
    yield "document", TRANSCRIPT_FILE
    yield "key-life", life_of_a_key(signed_and_checked(SETS[0]))
    yield "rules", under_each_rule(signed_and_checked(SETS[0]))
    for s in SETS:
        yield f"set-{s.number}", signed_and_checked(s)


def of_the_marker(s):
    """Key, points and message, and the numbers that the masks come from."""
    rng = Random(f"example of the marker in set {s.number}")
    return material.key(rng, s), material.points(rng, s), b"Unit four, exercise 17\n", rng


def for_the_marker(s):
    f, at, text, rng = of_the_marker(s)
    yield "public_key", material.public_key(s, f, at)
    yield "message", text
    yield "signature", material.signature(rng, s, f, at, text, LOW_BYTE_RULE)
    yield "signature-rule-2", material.signature(rng, s, f, at, text, THREE_BYTE_RULE)


def lines_of(numbers):
    """Twenty to a line."""
    return b"".join(" ".join(map(str, numbers[at:at + 20])).encode() + b"\n" for at in range(0, len(numbers), 20))


def for_signing(s):
    f, at, text, _ = of_the_marker(s)
    rng = Random(f"example of signing in set {s.number}")
    masks = [material.failing_mask(rng, s, f, at, text, LOW_BYTE_RULE), material.passing_mask(rng, s), material.passing_mask(rng, s)]
    yield "secret_key", encodings.write_secret_key(s, f)
    yield "points.txt", lines_of(at)
    yield "masks.txt", b"\n".join(map(lines_of, masks))
    yield "message", text


def as_text(s):
    """The text of the session of a set, and the files of numbers that it names."""
    file = signed_and_checked(s)
    played = commands_played.commands(file, play_to_the_end(file).decode().splitlines())
    points, key, message, *masks = [each.operand for each in played if each.command in (0x02, 0x03, 0x05, 0x04)]
    numbers = {"points": encodings.numbers(points, 2), "key": encodings.read_key(key),
               **{f"mask-{at}": encodings.numbers(mask, 2, signed=True) for at, mask in enumerate(masks, 1)}}
    lines = [f"# The session set-{s.number}.session, its numbers in files of their own", f"set {s.number}", f"points @set-{s.number}/points.txt",
             f"key @set-{s.number}/key.txt", f"message hex {message.hex().upper()}",
             *(f"mask @set-{s.number}/mask-{at}.txt" for at in range(1, len(masks) + 1)), "sign", "check last", "end"]
    yield f"set-{s.number}.txt", "".join(line + "\n" for line in lines).encode()
    for name, values in numbers.items():
        yield f"set-{s.number}/{name}.txt", lines_of(values)


def main():
    for folder, files in (("marker", for_the_marker(SETS[1])), ("sign", for_signing(SETS[1])), ("texts", as_text(SETS[1]))):
        for name, content in files:
            path = TESTS.parent / "examples" / folder / name
            path.parent.mkdir(parents=True, exist_ok=True)
            path.write_bytes(content)
    folder = TESTS.parent / "examples/sessions"
    folder.mkdir(parents=True, exist_ok=True)
    for name, file in examples():
        (folder / f"{name}.session").write_bytes(file)
        (folder / f"{name}.rows").write_bytes(play_to_the_end(file))
        print(f"wrote {name}.session, {len(file)} bytes")


if __name__ == "__main__":
    main()
