"""The signatures of a session as pictures: those that 06 made and those that 07 was given, damaged ones too, each once."""

from typing import NamedTuple

from .commands import CHECK, SIGN
from .picture import signature_svg


ROWS_TOLD = 4


class Signature(NamedTuple):
    set: object
    data: bytes  # without the set byte
    pieces: list  # the commands that made or checked it


def signatures(pieces):
    """In the order in which they first occur."""
    found = {}
    for piece in pieces:
        data = signature_of(piece)
        if data is not None:
            key = piece.set.number, data
            found.setdefault(key, Signature(piece.set, data, [])).pieces.append(piece)
    return list(found.values())


def signature_of(piece):
    """Of an accepted 06 what its row prints, of a 07 its operand; else None."""
    if piece.command is SIGN and piece.row.number == 0:
        return bytes.fromhex(piece.row.fields[1])[1:]
    return piece.operand if piece.command is CHECK else None


def told(piece):
    row = piece.row
    if row.number:
        return f"refused with {row.number} in row {row.ordinal}"
    if piece.command is SIGN:
        passed = int(row.fields[0])
        return f"signed in row {row.ordinal} under rule {piece.rule}, {passed} mask{'' if passed == 1 else 's'} passed over"
    return f"checked in row {row.ordinal} under rule {piece.rule}: {'yes' if is_yes(piece) else 'no'}"


def is_yes(piece):
    return piece.command is CHECK and piece.row.fields == ["1"]


def all_told(pieces):
    """The first ones each, and how the others judged."""
    first, others = [told(piece) for piece in pieces[:ROWS_TOLD]], pieces[ROWS_TOLD:]
    return "; ".join(first + ([f"and {len(others)} more, {sum(map(is_yes, others))} of them yes"] if others else []))


def numbers(data, signed):
    return [int.from_bytes(data[at:at + 2], "big", signed=signed) for at in range(0, len(data), 2)]


def picture_of(name, signature):
    """The number of the row it is named after, and the SVG."""
    s, ordinal = signature.set, signature.pieces[0].row.ordinal
    entries, z = signature.data[:2 * s.b], signature.data[2 * s.b:]
    challenge = [(entry & 0x7FFF, -1 if entry & 0x8000 else 1) for entry in numbers(entries, signed=False)]
    title = f"{name}, row {ordinal}: a signature of set {s.number}"
    return ordinal, signature_svg(title, all_told(signature.pieces), s.N, s.k - s.b, challenge, numbers(z, signed=True))
