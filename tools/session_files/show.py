"""A session file for the eye: each command with its place, its word and operand, its row, and for a refusal what it means and what to do. Or as the text
that pack takes."""

import re

from .commands import BY_BYTE, BY_WORD, TAG, spaced_hex
from .pack import NO_TAG, RAW
from .refusals import REFUSALS

ITEMS, KEPT = 16, 8  # a list of more items is shortened to its first ones
DIGITS = 64  # and so is hex of more digits
BYTES_A_LINE = 32


def command_text(piece):
    return f"{piece.command.word} {piece.command.operand.to_text(piece.operand)}".strip()


# ── As pack takes it ────────────────────────────────────────────────────────────────────────────

def raw_lines(data):
    return [f"{RAW} {spaced_hex(data[at:at + BYTES_A_LINE])}" for at in range(0, len(data), BYTES_A_LINE)]


def as_text(pieces):
    """Lines from which pack makes the same bytes."""
    whole = b"".join(piece.data for piece in pieces)
    lines, start = ([], len(TAG)) if whole.startswith(TAG) else ([NO_TAG], 0)
    for piece in pieces:
        if piece.command:
            lines.append(command_text(piece))
        else:
            lines += raw_lines(piece.data[max(start - piece.place, 0):])
    return lines


# ── For the eye ─────────────────────────────────────────────────────────────────────────────────

def shortened(text):
    """The first items of a long list, and the first digits of long hex; how many there are is said behind it."""
    items = text.split(" ")
    if len(items) > ITEMS:
        text = " ".join(items[:KEPT]) + f" .. ({len(items)} in all)"
    return " ".join(item if len(item) <= DIGITS else f"{item[:DIGITS // 2]}.. ({len(item) // 2} bytes)" for item in text.split(" "))


def operand_shown(piece, full):
    """A command's word and operand, or bytes in hex."""
    if piece.command is None:
        data = piece.data
        if data == TAG and piece.place == 0 and piece.row is None:
            return f"the tag {TAG.decode()}"
        kept = data if full else data[:BYTES_A_LINE]
        return f"{RAW} {spaced_hex(kept)}" + (f" .. ({len(data)} bytes)" if len(kept) < len(data) else "") if data else "(the end of the file)"
    word, operand = piece.command.word, piece.command.operand.to_text(piece.operand)
    return f"{word} {operand if full or word == 'message' else shortened(operand)}".strip()


def row_shown(row, full):
    front, fields = " ".join(row.text.split(" ")[:3]), " ".join(row.fields)
    return f"row {front} {fields if full else shortened(fields)}".strip()


def remarks(piece):
    """What a row means beyond its numbers: its refusal, or what it adds."""
    row = piece.row
    if row is None:
        if not (piece.place == 0 and piece.data == TAG):
            yield "not played: the session has ended"
    elif row.number:
        refusal = REFUSALS[row.number]
        yield f"refused with {row.number}: {refusal.wrong}{numbers_named(refusal, piece.set)}"
        yield from in_particular(piece)
        yield f"to do: {refusal.remedy}"
        if refusal.ends:
            yield "the session ends here"
    elif piece.command.adds:
        yield f"adds {piece.command.adds}"


def numbers_named(refusal, s):
    """The numbers of the set in force that a refusal speaks of."""
    letters = [letter for letter in s._fields[1:] if re.search(rf"\b{letter}\b", f"{refusal.wrong} {refusal.remedy}")] if s else []
    return f" (in set {s.number} {', '.join(f'{letter} = {getattr(s, letter)}' for letter in letters)})" if letters else ""


def in_particular(piece):
    """What of a refusal the command and the file tell: what it needs, how many bytes its operand lacks, or that the file is a text."""
    number, command = piece.row.number, BY_BYTE.get(piece.data[0]) if piece.data else None
    if number == 10:
        yield f"`{command.word}` needs {command.needs}"
    if number == 13 and command:
        wanted, where = command.operand.bytes_in(piece.set), f" in set {piece.set.number}" if piece.set else ""
        yield f"the operand of {command.byte:02X}, `{command.word}`, has {wanted} bytes{where}, and {len(piece.data) - 1} are left"
    if number == 15 and piece.data.split()[:1] and piece.data.split()[0].decode("latin-1") in (*BY_WORD, RAW, NO_TAG, "#"):
        yield "this looks like a text: bin/session pack makes a session file of it"


def listing(pieces, full=False):
    """Lines with the place in the file first."""
    width = max(len(str(piece.place)) for piece in pieces)
    for piece in pieces:
        yield f"{piece.place:>{width}}  {operand_shown(piece, full)}"
        indent = " " * (width + 6)
        if piece.row:
            yield indent + row_shown(piece.row, full)
        yield from (indent + remark for remark in remarks(piece))
