"""The commands of a session file: byte, word, operand, what it does and what its row adds. pack and show go by this table, and README has its rows
(tests/tables.py): a new command is a row here and one there.

An operand knows its size in bytes in a set (None where no set is in force and the size goes by the set), reads its text (`from_text`), and writes the
text of its bytes (`to_text`), from which the same bytes come again.
"""

import re
from typing import NamedTuple

from .mistakes import expect, short

TAG = b"PSG1"
MESSAGE_BYTES = 64
NUMBER = re.compile(r"[+-]?[0-9]{1,19}")
DAMAGED = "(for a damaged session write the bytes with raw)"


def in_set(s):
    return f"in set {s.number}"


class Nothing(NamedTuple):
    """No operand."""

    operand: str = ""
    size: str = "0"
    example: str = ""

    def bytes_in(self, s):
        return 0

    def from_text(self, text, s):
        expect(not text.rest, short(text.rest), "nothing after this word")
        return b""

    def to_text(self, data):
        return ""


class Numbers(NamedTuple):
    """So many numbers of so many bytes each, high byte first, signed ones in two's complement."""

    operand: str  # as README has it
    noun: str
    count: object  # how many: a number, or the name of one of a set's
    width: int
    signed: bool = False
    example: str = ""
    hint: str = ""  # for a number that cannot be written

    @property
    def size(self):
        if isinstance(self.count, int):
            return str(self.count * self.width)
        return (str(self.width) if self.width > 1 else "") + self.count

    def count_in(self, s):
        if isinstance(self.count, int):
            return self.count
        return getattr(s, self.count) if s else None

    def bytes_in(self, s):
        count = self.count_in(s)
        return None if count is None else count * self.width

    def ends(self):
        """The least and the largest number that has an encoding."""
        bits = 8 * self.width
        return (-1 << bits - 1, (1 << bits - 1) - 1) if self.signed else (0, (1 << bits) - 1)

    def from_text(self, text, s):
        items = text.items()
        for at, item in enumerate(items):
            self.expect_number(at, item, NUMBER.fullmatch(item.text))
        count = self.count_in(s)
        if count is not None:
            found = f"{len(items)} number{'' if len(items) == 1 else 's'}{text.files_named()}"
            expect(len(items) == count, found, f"{count} {self.noun} {in_set(s) + ' ' if isinstance(self.count, str) else ''}{DAMAGED}")
        return b"".join(self.encoded(at, item) for at, item in enumerate(items))

    def expect_number(self, at, item, holds):
        low, high = self.ends()
        expect(holds, f"{short(item.text)} as number {at + 1}{item.origin}", f"a whole number from {low} to {high}{self.hint}")

    def encoded(self, at, item):
        low, high = self.ends()
        self.expect_number(at, item, low <= int(item.text) <= high)
        return int(item.text).to_bytes(self.width, "big", signed=self.signed)

    def to_text(self, data):
        parts = (data[at:at + self.width] for at in range(0, len(data), self.width))
        return " ".join(str(int.from_bytes(part, "big", signed=self.signed)) for part in parts)


class Message(NamedTuple):
    """"Text" in UTF-8 with zero bytes behind it, or hex and all 64 bytes."""

    operand: str = "the message"
    size: str = str(MESSAGE_BYTES)
    example: str = '"text", padded with zero bytes, or hex and 64 bytes'

    def bytes_in(self, s):
        return MESSAGE_BYTES

    def from_text(self, text, s):
        if text.rest.startswith('"'):
            data = text.quoted().encode()
            expect(len(data) <= MESSAGE_BYTES, f"a text of {len(data)} bytes", f"at most {MESSAGE_BYTES}")
            return data.ljust(MESSAGE_BYTES, b"\0")
        expect(text.rest.split(None, 1)[:1] == ["hex"], short(text.rest) if text.rest else "no message", 'message "text", or message hex and 64 bytes')
        data = text.after("hex").hex()
        expect(len(data) == MESSAGE_BYTES, f"{len(data)} bytes", f"{MESSAGE_BYTES} bytes after hex {DAMAGED}")
        return data

    def to_text(self, data):
        try:
            text = data.rstrip(b"\0").decode()
        except UnicodeDecodeError:
            return "hex " + spaced_hex(data)
        quoted = '"' + text.replace("\\", "\\\\").replace('"', '\\"') + '"'
        return quoted if text.isprintable() else "hex " + spaced_hex(data)


class Signature(NamedTuple):
    """Hex, with the set byte as the row of 06 prints it or without, or `last`."""

    operand: str = "a signature without its set byte"
    size: str = "2b + 2N"
    example: str = "last, or the hex of a signature with its set byte or without"

    def bytes_in(self, s):
        return 2 * s.b + 2 * s.N if s else None

    def from_text(self, text, s):
        if text.rest == "last":
            return self.sized(text.last_signature(), s)
        expect(text.rest, "no signature", "check last, or check and the signature in hex")
        return self.sized(text.hex("last, or hex digits"), s)

    def sized(self, data, s):
        size = self.bytes_in(s)
        if size is None or len(data) == size:
            return data
        expect(len(data) == size + 1, f"a signature of {len(data)} bytes", f"{size} {in_set(s)}, or {size + 1} with its set byte {DAMAGED}")
        expect(data[0] == s.number, f"a signature of set {data[0]}", f"one of set {s.number}, which is in force")
        return data[1:]

    def to_text(self, data):
        return data.hex().upper()


def spaced_hex(data):
    """Eight bytes together, for the eye."""
    return " ".join(data[at:at + 8].hex().upper() for at in range(0, len(data), 8))


class Command(NamedTuple):
    byte: int
    word: str
    operand: object
    does: str
    adds: str = ""  # behind the number of its row, where it is accepted
    needs: str = ""  # what must be held, or it is refused: without a set with 3, else with 10

    @property
    def readme_row(self):
        cells = f"{self.byte:02X}", f"`{self.word}`", self.operand.operand, self.operand.size, self.needs, self.does, self.adds
        return "|" + "".join(f" {cell} |" if cell else " |" for cell in cells)


COMMANDS = (
    Command(0x00, "end", Nothing(), "ends the session"),
    Command(0x01, "set", Numbers("the set, 0 to 4", "number", 1, 1, example="1"),
            "chooses the set, and forgets all else held; the rule stays in force"),
    Command(0x02, "points", Numbers("exponents, strictly increasing in 1..N-1, two bytes each", "exponents", "t", 2, example="1 4 or @points.txt"),
            "holds the points, and forgets key and evaluations", needs="a set"),
    Command(0x03, "key", Numbers("the key, N bytes: 00, 01, or FF for -1", "coefficients", "N", 1, signed=True, example="0 1 -1 -1 0 or @key.txt",
                                 hint="; the player takes -1, 0 and 1"),
            "holds the key, which may give 65535 signatures, and works out its public evaluations",
            "the t evaluations in signed form, from -(q-1)/2 to (q-1)/2", needs="points"),
    Command(0x04, "mask", Numbers("a mask, N numbers in -k..k, two bytes each, two's complement", "coefficients", "N", 2, signed=True,
                                  example="1 -1 1 -6 2 or @mask.txt"),
            "holds the mask behind the others, at most eight", needs="a set"),
    Command(0x05, "message", Message(), "holds it", needs="a set"),
    Command(0x06, "sign", Nothing(),
            "signs with the first mask held that passes; drops the masks up to and with it, and takes one off the signatures left to the key",
            "the number passed over, and the signature in upper-case hex", needs="points, a key and a message"),
    Command(0x07, "check", Signature(), "checks it", "1 for yes, 0 for no", needs="points, evaluations (by 03 or 08) and a message"),
    Command(0x08, "evaluations", Numbers("public evaluations in 0..q-1, three bytes each", "evaluations", "t", 3, example="21 4 or @evaluations.txt",
                                         hint=" (add q to one that a row prints with a minus sign)"),
            "holds them, and forgets the key", needs="points"),
    Command(0x0A, "life", Numbers("a number, 0 to 65535", "number", 1, 2, example="3"),
            "sets how many signatures the key held may still give, whatever it was", needs="a key"),
    Command(0x0B, "rule", Numbers("the rule of hashing, 1 or 2", "number", 1, 1, example="2"), "puts it in force; all that is held stays"),
)

BY_BYTE = {command.byte: command for command in COMMANDS}
BY_WORD = {command.word: command for command in COMMANDS}
SET, END, SIGN, CHECK, RULE = (BY_WORD[word] for word in ("set", "end", "sign", "check", "rule"))
