"""Text to session file. Each line has a word and its operand; the words are those of commands.py, and two more: `raw` with hex, for bytes that are no
command, and `no-tag` as the first word, for a file that does not open with the tag.

What the player should refuse is packed like anything else; a mistake is what has no bytes.
"""

import difflib
import re
from pathlib import Path
from typing import NamedTuple

from . import played
from .commands import BY_WORD, SET, SIGN, TAG
from .mistakes import Mistake, expect, short
from .refusals import REFUSALS
from .sets import SETS

RAW, NO_TAG = "raw", "no-tag"
SEPARATORS = re.compile(r"[\s,]+")


class Item(NamedTuple):
    text: str
    origin: str = ""  # where it stands, if in a file of its own


class Text:
    """What stands behind a word, for an operand to read."""

    def __init__(self, rest, folder, last_signature):
        self.rest, self.folder, self.last_signature = rest, folder, last_signature

    def after(self, word):
        return Text(self.rest[len(word):].strip(), self.folder, self.last_signature)

    def items(self):
        """What stands between white space and commas; for @NAME what stands so in that file."""
        found = []
        for text in filter(None, SEPARATORS.split(self.rest)):
            found += self.items_of_file(text[1:]) if text.startswith("@") else [Item(text)]
        return found

    def items_of_file(self, name):
        """As on a line, with comments."""
        try:
            lines = lines_of((self.folder / name).read_text(encoding="utf-8-sig"))
        except (OSError, ValueError) as error:
            reason = getattr(error, "strerror", None) or "its name or its content is not UTF-8 text"
            raise Mistake(f"found @{name}, which cannot be read ({reason}): expected a file of numbers apart by white space or commas, "
                          "its path from the folder of this text")
        return [Item(text, f" (of {name}, line {at})") for at, line in enumerate(lines, 1) for text in filter(None, SEPARATORS.split(without_comment(line)))]

    def files_named(self):
        names = [text for text in SEPARATORS.split(self.rest) if text.startswith("@")]
        return f" with {', '.join(names)}" if names else ""

    def hex(self, expected="hex digits"):
        items = self.items()
        for item in items:
            expect(re.fullmatch("[0-9A-Fa-f]+", item.text), short(item.text) + item.origin, expected)
        digits = "".join(item.text for item in items)
        expect(len(digits) % 2 == 0, f"{len(digits)} hex digits", "two for each byte")
        return bytes.fromhex(digits)

    def quoted(self):
        """What stands between quotes, where \\" is a quote and \\\\ a backslash."""
        match = re.fullmatch(r'"((?:[^"\\]|\\["\\])*)"', self.rest)
        expect(match, short(self.rest), 'text between two quotes ", with \\" for a quote and \\\\ for a backslash in it')
        return re.sub(r'\\(["\\])', r"\1", match.group(1))


def lines_of(text):
    return re.split("\r\n|\r|\n", text)


def without_comment(line):
    """A # outside quotes starts a comment."""
    return re.match(r'(?:"(?:\\.|[^"\\])*"?|[^"#])*', line).group()


class Packer:
    def __init__(self, folder):
        self.folder = folder
        self.file, self.set = bytearray(TAG), None
        self.words = 0  # packed so far
        self.signing = None  # line and place of the last sign, and the set in force
        self.mistakes = []

    def add(self, number, line):
        word, *rest = without_comment(line).split(None, 1) or [""]
        if word:
            self.file += self.bytes_of(number, word, Text("".join(rest).strip(), self.folder, self.last_signature))
            self.words += 1

    def bytes_of(self, number, word, text):
        if word == NO_TAG:
            expect(self.words == 0 and not text.rest, f"{NO_TAG} here", f"{NO_TAG} alone, before all else")
            self.file.clear()
            return b""
        if word == RAW:
            expect(text.rest, "no bytes", "raw and bytes in hex")
            return text.hex()
        expect(word in BY_WORD, f"the word {short(word)}", expected_words(word))
        return self.command_bytes(number, BY_WORD[word], text)

    def command_bytes(self, number, command, text):
        operand = command.operand.from_text(text, self.set)
        if command is SET and operand[0] < len(SETS):
            self.set = SETS[operand[0]]
        if command is SIGN:
            self.signing = number, len(self.file), self.set
        return bytes([command.byte]) + operand

    def last_signature(self):
        """The signature that the player's row of the last sign has."""
        expect(not self.mistakes, "a mistake above", "it mended first: nothing can be played till then")
        expect(self.signing, "no sign before this line", "check last behind a sign, or check and the signature in hex")
        line, place, of_set = self.signing
        expect(of_set in (None, self.set), f"that the sign in line {line} is in set {of_set and of_set.number}",
               f"one in set {self.set and self.set.number}, which is in force")
        pieces = [piece for piece in played.played_pieces(bytes(self.file)) if piece.row]
        made = [piece.row for piece in pieces if piece.place == place and piece.row.byte == SIGN.byte]
        if made and made[0].number == 0:
            return bytes.fromhex(made[0].fields[1])
        raise Mistake(no_signature(line, place, made, pieces[-1]))


def no_signature(line, place, made, last):
    """Why the sign in a line gives none: its row, if it has one, is a refusal; else the session ends before it, or another command has its byte."""
    if made:
        refusal = REFUSALS[made[0].number]
        return (f"found that the sign in line {line} is refused with {refusal.number} ({refusal.wrong}): expected a sign that is accepted "
                f"({refusal.remedy})")
    if last.place < place or last.row.ordinal == 0:
        refusal = REFUSALS[last.row.number]
        return (f"found that the session ends before the sign in line {line}, by refusal {refusal.number} ({refusal.wrong}): expected a sign that is played "
                f"({refusal.remedy})")
    return f"found that the sign in line {line} is no command, since bytes before it take it as theirs: expected a sign that is played"


def expected_words(word):
    near = difflib.get_close_matches(word.lower(), [*BY_WORD, RAW, NO_TAG], 1)
    return (f"'{near[0]}', or another of " if near else "one of ") + ", ".join([*BY_WORD, RAW, NO_TAG])


def pack(text, folder=Path(".")):
    """The session file of a text, and the mistakes in it as (line, what) each; where there are any, the file is not whole."""
    packer = Packer(folder)
    for number, line in enumerate(lines_of(text), 1):
        try:
            packer.add(number, line)
        except Mistake as mistake:
            packer.mistakes.append((number, str(mistake)))
    return bytes(packer.file), packer.mistakes
