"""A session file beside the rows that the kit's player gives for it: each command with its place, its operand and its row."""

import subprocess
from functools import lru_cache
from pathlib import Path
from typing import NamedTuple

from .commands import BY_BYTE, END, RULE, SET, TAG
from .mistakes import Mistake
from .refusals import REFUSALS
from .sets import SETS

INTERRUPTED = 130
REPOSITORY = Path(__file__).resolve().parent.parent.parent


class Row(NamedTuple):
    text: str
    ordinal: int
    byte: int
    number: int  # 0, or the refusal
    fields: list  # what the row adds


class Piece(NamedTuple):
    """A command with its operand, or bytes that are none (the tag too)."""

    place: int
    data: bytes
    command: object = None
    set: object = None  # in force there
    rule: int = 1  # of hashing, in force there
    row: object = None  # of a command that was played, or of bytes that end the session

    @property
    def operand(self):
        return self.data[1:]


@lru_cache(maxsize=None)
def build_player():
    """The player's path. bin/build shows its progress, and ends what it started when it is interrupted, so it is waited for then too."""
    building = subprocess.Popen([REPOSITORY / "bin/build", "play"], stdin=subprocess.DEVNULL)
    while building.returncode is None:
        try:
            building.wait()
        except KeyboardInterrupt:
            pass
    if building.returncode == INTERRUPTED:
        raise SystemExit(INTERRUPTED)
    if building.returncode != 0:
        raise Mistake("the player cannot be built: see above")
    return REPOSITORY / "target/bin/play"


def rows_of(file):
    """The rows that the player gives for the bytes of a session file."""
    played = subprocess.run([build_player()], input=file, stdout=subprocess.PIPE)
    if played.returncode != 0:
        raise Mistake(f"the player ended with {played.returncode}: remove target/bin/play, and it is built anew")
    return [row_of(text) for text in played.stdout.decode().splitlines()]


def row_of(text):
    ordinal, byte, number, *fields = text.split(" ")
    return Row(text, int(ordinal), int(byte, 16), int(number), fields)


def pieces(file, rows):
    """All bytes of the file, in order."""
    if rows[0].ordinal == 0:
        yield Piece(0, file, row=rows[0])
        return
    yield Piece(0, file[:len(TAG)])
    s, rule, place = None, 1, len(TAG)
    for row in rows:
        piece = piece_at(place, file, s, row)._replace(rule=rule)
        yield piece
        place += len(piece.data)
        if row.number == 0 and piece.command is SET:
            s = SETS[piece.operand[0]]
        if row.number == 0 and piece.command is RULE:
            rule = piece.operand[0]
    if place < len(file):
        yield Piece(place, file[place:], set=s)


def piece_at(place, file, s, row):
    """The command that a row is of. One that ends the session takes all bytes left, but for a 00 with bytes after it."""
    if row.byte != (file[place] if place < len(file) else 0):
        raise Mistake(f"the player's row '{row.text[:40]}' is not of the byte at {place}: the tables of tools/session_files are not those of the player")
    command = BY_BYTE.get(row.byte)
    if row.number and REFUSALS[row.number].ends and not (command is END and place < len(file)):
        return Piece(place, file[place:], set=s, row=row)
    return Piece(place, file[place:place + 1 + command.operand.bytes_in(s)], command, s, row=row)


def played_pieces(file):
    return list(pieces(file, rows_of(file)))
