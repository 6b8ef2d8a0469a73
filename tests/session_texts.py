"""bin/session on the sessions of tests/sessions.py and on texts: a file's text packs to the same bytes, however it is spaced and wherever its numbers and
signatures stand; each row and each refusal is shown; and each mistake is told with its line."""

import re
import sys
from collections import Counter
from pathlib import Path
from random import Random
from tempfile import TemporaryDirectory

import sessions
from building import REPOSITORY

sys.path.insert(0, str(REPOSITORY / "tools"))

from session_files import commands, pack, played, show  # noqa: E402
from session_files.refusals import REFUSALS  # noqa: E402

OFTEN_CHANGED = 4  # every so manieth text is written otherwise, too
WANTED = {pack.NO_TAG, pack.RAW, "check last", "numbers of a file", "set byte", *commands.BY_WORD}


# ── The same bytes ──────────────────────────────────────────────────────────────────────────────

def rewritten(rng, line, signature, folder, seen):
    """A line that means the same: other spaces, a comment, numbers of a file, the last signature by name or with its set byte."""
    word, *rest = line.split(" ")
    if word == "check" and signature and signature[2:] == rest[0]:
        rest = rng.choice((["last"], [signature], rest))
        seen["check last"] += rest == ["last"]
        seen["set byte"] += rest == [signature]
    if isinstance(getattr(commands.BY_WORD.get(word), "operand", None), commands.Numbers):
        if rng.random() < 0.3:
            file = folder / f"{rng.getrandbits(32):08x}.txt"
            file.write_text(rng.choice((" ", ",", ", ", "\n", "\r\n", "\t", " # one\n")).join(rest) + rng.choice(("", "\n", "# all")))
            rest = [f"@{file.name}"]
            seen["numbers of a file"] += 1
        line = word + rng.choice((" ", "\t", "  ")) + rng.choice((" ", ",", " , ", "\t")).join(rest)
    elif word in ("check", "raw"):
        line = " ".join([word, *rest]).lower()
    return rng.choice(("", " ", "\t")) + line + rng.choice(("", "  ", " # and \"a comment\" #", "#", "\r"))


def rewritten_text(rng, pieces, folder, seen):
    lines, signature = [], None
    for piece in pieces:
        if piece.command is commands.SIGN:
            signature = piece.row.fields[1] if piece.row.number == 0 else None
        if piece.command:
            lines.append(rewritten(rng, show.command_text(piece), signature, folder, seen))
    others = [line for line in show.as_text(pieces) if line.split(" ")[0] in (pack.RAW, pack.NO_TAG)]
    front = [line for line in others if line == pack.NO_TAG]
    return "\n".join([*front, "# a session", "", *lines, *others[len(front):]])


def fault_of_text(file, pieces, rng, folder, seen, change):
    """What is wrong with a file's text; None where it packs to the file's bytes."""
    lines = show.as_text(pieces)
    seen.update(line.split(" ")[0] for line in lines)
    texts = ["\n".join(lines)] + ([rewritten_text(rng, pieces, folder, seen)] if change else [])
    for text in texts:
        packed, mistakes = pack.pack(text, folder)
        if mistakes or packed != file:
            return f"its text packs to other bytes, or has mistakes {mistakes[:2]}"
        again = show.as_text(played.played_pieces(packed)) if text is not texts[0] else lines
        if again != lines:
            return "what it packs to has another text"
    return None


def is_told(line, refusal):
    """With the numbers that it speaks of, which stand in the table of sets by a letter."""
    numbers = r" \(in set \d [Nqgkbt] = \d+(, [Nqgkbt] = \d+)*\)"
    return re.fullmatch(re.escape(f"refused with {refusal.number}: {refusal.wrong}") + f"({numbers})?", line)


def fault_of_listing(pieces, rows):
    """Each row whole and in order, each refusal with its words, each place; None where all is there."""
    full = list(show.listing(pieces, full=True))
    if [line.split("row ", 1)[1] for line in full if line.lstrip().startswith("row ")] != [row.text for row in rows]:
        return "its listing does not have the player's rows"
    if [int(line.split()[0]) for line in full if line.lstrip()[:1].isdigit()] != [piece.place for piece in pieces]:
        return "its listing does not have the places of its commands"
    told = [line.strip() for line in full]
    for row in rows:
        refusal = REFUSALS.get(row.number)
        if refusal and not (any(is_told(line, refusal) for line in told) and f"to do: {refusal.remedy}" in told):
            return f"its listing does not tell what {row.number} means"
    longest = max(map(len, show.listing(pieces)))
    return f"a line of {longest} characters in its listing" if longest > 320 else None


def files_agree(seed, names):
    seen, rng = Counter(), Random(f"{seed} texts")
    with TemporaryDirectory() as folder:
        for at, name in enumerate(names):
            file = sessions.make(seed, name)
            rows = played.rows_of(file)
            pieces = list(played.pieces(file, rows))
            fault = "its pieces are not the file" if b"".join(piece.data for piece in pieces) != file else None
            fault = fault or fault_of_text(file, pieces, rng, Path(folder), seen, at % OFTEN_CHANGED == 0) or fault_of_listing(pieces, rows)
            if fault:
                print(f"texts: DIFFERENCE in session '{name}': {fault}; seed {seed}")
                return False
    gaps = sorted(word for word in WANTED if not seen[word])
    for gap in gaps:
        print(f"texts: NOT COVERED: {gap}")
    print(f"texts: {len(names)} sessions have a text that packs to their bytes, and a listing with their rows: "
          + ", ".join(f"{word}: {count}" for word, count in sorted(seen.items())))
    return not gaps


# ── Messages ────────────────────────────────────────────────────────────────────────────────────

CHARACTERS = 'ab 7#"\\,@\'\t\0é√𝄞'


def messages_agree(seed):
    """Any 64 bytes have a text; what can be read is between quotes."""
    rng, quoted = Random(f"{seed} messages"), 0
    for _ in range(2000):
        text = "".join(rng.choice(CHARACTERS) for _ in range(rng.randint(0, 40))).encode()[:64].ljust(64, b"\0")
        data = rng.choice((text, text, rng.randbytes(64)))
        line = f"message {commands.Message().to_text(data)}  # {rng.choice(CHARACTERS)}"
        quoted += line.startswith('message "')
        if pack.pack(line) != (commands.TAG + b"\x05" + data, []):
            print(f"texts: DIFFERENCE: the message {data.hex()} has the text {line!r}, which packs to other bytes; seed {seed}")
            return False
    print(f"texts: 2000 messages pack to their bytes, {quoted} of them between quotes")
    return quoted > 100


# ── Mistakes ────────────────────────────────────────────────────────────────────────────────────

DAMAGED = "(for a damaged session write the bytes with raw)"
UNREADABLE = "which cannot be read ({}): expected a file of numbers apart by white space or commas, its path from the folder of this text"
WORDS = "end, set, points, key, mask, message, sign, check, evaluations, life, rule, raw, no-tag"
BEGUN = 'set 0\npoints 1 4\nkey 0 1 -1 -1 0\nmessage "Unit four, exercise 17"\n'

# A text, the line of its only mistake, and what is told.
MISTAKES = (
    ("set 0\npoints 1", 2, f"found 1 number: expected 2 exponents in set 0 {DAMAGED}"),
    ("# one\n\nset 1\nkey 0 1 -1 # three\n", 4, f"found 3 numbers: expected 433 coefficients in set 1 {DAMAGED}"),
    ("set 0\nset 9\nmask 1 2 3 4 5 6", 3, f"found 6 numbers: expected 5 coefficients in set 0 {DAMAGED}"),
    ("set", 1, f"found 0 numbers: expected 1 number {DAMAGED}"),
    ("set 256", 1, "found '256' as number 1: expected a whole number from 0 to 255"),
    ("points 1 65536", 1, "found '65536' as number 2: expected a whole number from 0 to 65535"),
    ("key 0 128", 1, "found '128' as number 2: expected a whole number from -128 to 127; the player takes -1, 0 and 1"),
    ("mask -32769", 1, "found '-32769' as number 1: expected a whole number from -32768 to 32767"),
    ("mask 1.5", 1, "found '1.5' as number 1: expected a whole number from -32768 to 32767"),
    ("mask 1_000", 1, "found '1_000' as number 1: expected a whole number from -32768 to 32767"),
    ("mask " + 30 * "9", 1, f"found '{30 * '9'}' as number 1: expected a whole number from -32768 to 32767"),
    ("mask " + 50 * "x", 1, f"found '{40 * 'x'}'… as number 1: expected a whole number from -32768 to 32767"),
    ("evaluations -10", 1, "found '-10' as number 1: expected a whole number from 0 to 16777215 (add q to one that a row prints with a minus sign)"),
    ("life -1", 1, "found '-1' as number 1: expected a whole number from 0 to 65535"),
    ("rule two", 1, "found 'two' as number 1: expected a whole number from 0 to 255"),
    ("mask @none.txt", 1, "found @none.txt, " + UNREADABLE.format("No such file or directory")),
    ("mask 1 @wrong.txt", 1, "found 'x' as number 4 (of wrong.txt, line 2): expected a whole number from -32768 to 32767"),
    ("set 0\nmask @three.txt", 2, f"found 3 numbers with @three.txt: expected 5 coefficients in set 0 {DAMAGED}"),
    ("set 0; points 1 4", 1, "found '0;' as number 1: expected a whole number from 0 to 255"),
    ("set 0\nmask 1 - 1 2 3 4", 2, "found '-' as number 2: expected a whole number from -32768 to 32767"),
    ("mask @a\0b", 1, "found @a\0b, " + UNREADABLE.format("its name or its content is not UTF-8 text")),
    ("mask @bytes.txt", 1, "found @bytes.txt, " + UNREADABLE.format("its name or its content is not UTF-8 text")),
    ("mas 1", 1, f"found the word 'mas': expected 'mask', or another of {WORDS}"),
    ("01 00", 1, f"found the word '01': expected one of {WORDS}"),
    ("SET 0", 1, f"found the word 'SET': expected 'set', or another of {WORDS}"),
    ("sign 1", 1, "found '1': expected nothing after this word"),
    ("end .", 1, "found '.': expected nothing after this word"),
    ('message "' + 65 * "a" + '"', 1, "found a text of 65 bytes: expected at most 64"),
    ('message "' + 33 * "é" + '"', 1, "found a text of 66 bytes: expected at most 64"),
    ("message", 1, 'found no message: expected message "text", or message hex and 64 bytes'),
    ("message hello", 1, 'found \'hello\': expected message "text", or message hex and 64 bytes'),
    ("message hex 00", 1, f"found 1 bytes: expected 64 bytes after hex {DAMAGED}"),
    ('message "a', 1, "found '\"a': expected text between two quotes \", with \\\" for a quote and \\\\ for a backslash in it"),
    ('message "a" b', 1, "found '\"a\" b': expected text between two quotes \", with \\\" for a quote and \\\\ for a backslash in it"),
    ('message "\\n"', 1, "found '\"\\\\n\"': expected text between two quotes \", with \\\" for a quote and \\\\ for a backslash in it"),
    ("check", 1, "found no signature: expected check last, or check and the signature in hex"),
    ("check 0g", 1, "found '0g': expected last, or hex digits"),
    ("raw xy", 1, "found 'xy': expected hex digits"),
    ("check 012", 1, "found 3 hex digits: expected two for each byte"),
    ("set 0\ncheck 00", 2, f"found a signature of 1 bytes: expected 14 in set 0, or 15 with its set byte {DAMAGED}"),
    ("set 0\ncheck 01" + 14 * "00", 2, "found a signature of set 1: expected one of set 0, which is in force"),
    ("raw", 1, "found no bytes: expected raw and bytes in hex"),
    ("raw 0", 1, "found 1 hex digits: expected two for each byte"),
    ("set 0\nno-tag", 2, "found no-tag here: expected no-tag alone, before all else"),
    ("no-tag 00", 1, "found no-tag here: expected no-tag alone, before all else"),
    ("check last", 1, "found no sign before this line: expected check last behind a sign, or check and the signature in hex"),
    (BEGUN + "sign\ncheck last", 6, f"found that the sign in line 5 is refused with 9 ({REFUSALS[9].wrong}): expected a sign that is accepted ({REFUSALS[9].remedy})"),
    ("set 0\nsign\nsign # again\ncheck last\nend", 4,
     f"found that the sign in line 3 is refused with 10 ({REFUSALS[10].wrong}): expected a sign that is accepted ({REFUSALS[10].remedy})"),
    ("sign\ncheck last", 2, f"found that the sign in line 1 is refused with 3 ({REFUSALS[3].wrong}): expected a sign that is accepted (choose a set first)"),
    (BEGUN + "mask 0 0 0 0 0\nsign\nset 1\ncheck last", 8, "found that the sign in line 6 is in set 0: expected one in set 1, which is in force"),
    ("raw 09\nsign\ncheck last", 3, "found that the session ends before the sign in line 2, by refusal 14 (an unknown command): expected a sign that is played "
                                    f"({REFUSALS[14].remedy})"),
    ("no-tag\nsign\ncheck last", 3, "found that the session ends before the sign in line 2, by refusal 15 "
                                    f"({REFUSALS[15].wrong}): expected a sign that is played (put the tag first)"),
    ("raw 0B\nsign\nrule 1\ncheck last", 4, "found that the sign in line 2 is no command, since bytes before it take it as theirs: expected a sign that is played"),
)


def mistakes_agree():
    with TemporaryDirectory() as folder:
        (Path(folder) / "wrong.txt").write_text("2 3\nx")
        (Path(folder) / "three.txt").write_text("1 2 # two\n3 # and three")
        (Path(folder) / "bytes.txt").write_bytes(b"1 2 \xff")
        for text, line, told in MISTAKES:
            found = pack.pack(text, Path(folder))[1]
            if found != [(line, told)]:
                print(f"texts: DIFFERENCE: for {text[:60]!r} the mistakes are {found}, not {(line, told)}")
                return False
    several = pack.pack("set 0 0\nkey 1\nmask a\nsign\ncheck last")[1]
    if [line for line, _ in several] != [1, 3, 5] or several[2][1] != "found a mistake above: expected it mended first: nothing can be played till then":
        print(f"texts: DIFFERENCE: the mistakes of a text with three are {several}")
        return False
    print(f"texts: {len(MISTAKES)} mistakes are told with their line")
    return True


# What the player refuses, or nobody would write, is packed all the same.
PACKED = (
    ("", ""), ("# nothing\n", ""), ("set 0\rend\r", "0100 00"), ("set 0\r\nend", "0100 00"),
    ("end", "00"), ("set 9\nset 255", "0109 01FF"), ("sign\nend\nend", "06 00 00"),
    ("points 1 2 3", "02 0001 0002 0003"), ("points", "02"), ("key -1 2 -128 127", "03 FF 02 80 7F"), ("set 0\npoints 4 4", "0100 02 0004 0004"),
    ("set 0\nmask 32767 -32768 -1 +0 007", "0100 04 7FFF 8000 FFFF 0000 0007"), ("evaluations 16777215 31", "08 FFFFFF 00001F"),
    ("check 00 01", "07 0001"),
    ("life 65535\nrule 0\nrule 255", "0A FFFF 0B00 0BFF"), ("raw 09 0C\nraw ff", "090C FF"),
    ("set 0\ncheck 000180020000FFFF000200000002", "0100 07 000180020000FFFF000200000002"),
    ("set 0\ncheck 00000180020000FFFF000200000002", "0100 07 000180020000FFFF000200000002"),
)


def packed_agree():
    for text, digits in PACKED:
        for front, tag in (("", commands.TAG), ("# none\nno-tag\n", b"")):
            found = pack.pack(front + text)
            if found != (tag + bytes.fromhex(digits), []):
                print(f"texts: DIFFERENCE: {front + text!r} packs to {found}, not {digits}")
                return False
    print(f"texts: {len(PACKED)} texts of what the player refuses are packed")
    return True


# Files that end otherwise than by a 00, and the text that show gives.
SHOWN = ((b"", ["no-tag"]), (b"PSG1", []), (b"PSG1\0\1", ["end", "raw 01"]), (b"PSG1\1\0\3\1", ["set 0", "raw 0301"]), (b"PSG1\x09\0", ["raw 0900"]),
         (b"PSG1\6\0", ["raw 0600"]), (b"PSG2\0", ["no-tag", "raw 5053473200"]))


def shown_agree():
    for file, lines in SHOWN:
        if show.as_text(played.played_pieces(file)) != lines:
            print(f"texts: DIFFERENCE: {file!r} has the text {show.as_text(played.played_pieces(file))}, not {lines}")
            return False
    return True


def run(seed):
    """True when all agree."""
    return shown_agree() and packed_agree() and mistakes_agree() and messages_agree(seed) and files_agree(seed, list(sessions.names()))
