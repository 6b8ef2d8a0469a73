"""A session's file and its rows side by side: each command with its operand and what its row says, up to the one that ends the session."""

from typing import NamedTuple

from reference.parameters import SETS
from reference.refusals import END_THE_SESSION
from reference.session import TAG_BYTES, operand_length


class Played(NamedTuple):
    row: str
    command: int
    operand: bytes
    number: int  # 0, or the refusal
    fields: list  # what the row adds


def commands(file, rows):
    s, place = None, len(TAG_BYTES)
    for row in rows:
        ordinal, command, number, *fields = row.split(" ")
        command, number = int(command, 16), int(number)
        if ordinal == "0" or command == 0x00 or number in END_THE_SESSION:
            return
        operand = file[place + 1:place + 1 + operand_length(s, command)]
        place += 1 + len(operand)
        if command == 0x01 and number == 0:
            s = SETS[operand[0]]
        yield Played(row, command, operand, number, fields)
