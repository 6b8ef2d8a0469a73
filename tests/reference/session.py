"""Document 01, "The session file", and document 02: opening a session and playing it, one command at a time."""

from typing import NamedTuple

from . import encodings, signing
from .challenge import LOW_BYTE_RULE, RULES
from .parameters import SETS
from .polynomials import are_evaluations, are_points, evaluation_residues, evaluations, is_key, is_mask
from .refusals import (BYTES_AFTER_END, CHALLENGE_INDEX, EIGHT_MASKS_HELD, END_THE_SESSION, EVALUATION,
                       EXPONENTS, FILE_ENDS, KEY_VALUE, LENGTH, MASK_COEFFICIENT, NOT_HELD,
                       NONE_LEFT, NO_MASK_PASSES, NO_SET_YET, RULE, Refused, SET, TAG, UNKNOWN_COMMAND, refuse_unless)

MOST_FILE_BYTES = 65536
ROW_BUFFER_BYTES = 16384
MESSAGE_BYTES = 64
MOST_MASKS_HELD = 8
SIGNATURES_OF_A_LOADED_KEY = 65535
TAG_BYTES = bytes.fromhex("50534731")
NEED_NO_SET = (0x00, 0x01, 0x0B)


class Session(NamedTuple):
    started: bool = False  # tag and length have been looked at
    ended: bool = False
    place: int = 0
    ordinal: int = 0  # of the last command's row
    rule: int = LOW_BYTE_RULE  # in force
    set: tuple = None
    points: list = None
    key: list = None
    left: int = None  # signatures that the key may still give
    evaluations: list = None
    message: bytes = None
    masks: tuple = ()


class Row(NamedTuple):
    number: int


ROW_BUFFER_AT_FAULT = "row buffer at fault"
HAS_ENDED = "has ended"


def open_session():
    return Session()


def play(session, file, rows):
    """The session after one play and its answer: a Row, ROW_BUFFER_AT_FAULT or HAS_ENDED."""
    if len(rows) != ROW_BUFFER_BYTES:
        return session, ROW_BUFFER_AT_FAULT
    if session.ended:
        return session, HAS_ENDED
    if not session.started:
        number = opening_refusal(file)
        if number:
            write_row(rows, 0, 0, number)
            return session._replace(started=True, ended=True), Row(number)
        session = session._replace(started=True, place=len(TAG_BYTES))
    return play_command(session, file, rows)


def opening_refusal(file):
    if len(file) > MOST_FILE_BYTES:
        return LENGTH
    return 0 if file[:len(TAG_BYTES)] == TAG_BYTES else TAG


def play_command(session, file, rows):
    after = session._replace(ordinal=session.ordinal + 1)
    command = file[session.place] if session.place < len(file) else None
    number, fields = 0, ()
    try:
        operand = operand_of(session, command, file)
        after = after._replace(place=session.place + 1 + len(operand))
        if command == 0x00:
            refuse_unless(after.place == len(file), BYTES_AFTER_END)
        else:
            after, fields = PLAYED[command](after, operand)
    except Refused as refusal:
        number = refusal.number
        if number == NO_MASK_PASSES:
            after = after._replace(masks=())
    ends = number in END_THE_SESSION or (command == 0x00 and number == 0)
    write_row(rows, after.ordinal, command or 0, number, *fields)
    return after._replace(ended=ends), Row(number)


def operand_of(session, command, file):
    """Tests 14, 3, 13; a file that ends where a command is due is 13 too."""
    refuse_unless(command is not None, FILE_ENDS)
    refuse_unless(command == 0x00 or command in PLAYED, UNKNOWN_COMMAND)
    refuse_unless(command in NEED_NO_SET or session.set is not None, NO_SET_YET)
    length = operand_length(session.set, command)
    operand = file[session.place + 1:session.place + 1 + length]
    refuse_unless(len(operand) == length, FILE_ENDS)
    return operand


def operand_length(s, command):
    if command in (0x00, 0x06):
        return 0
    if command in (0x01, 0x0B):
        return 1
    return {0x02: 2 * s.t, 0x03: s.N, 0x04: 2 * s.N, 0x05: MESSAGE_BYTES,
            0x07: 2 * s.b + 2 * s.N, 0x08: 3 * s.t, 0x0A: 2}[command]


def write_row(rows, ordinal, command, number, *fields):
    """At the front of the buffer; the bytes behind the row stay."""
    texts = [str(ordinal), f"{command:02X}", str(number), *map(str, fields)]
    row = " ".join(texts).encode() + b"\n"
    rows[:len(row)] = row


def hold_set(session, operand):
    refuse_unless(operand[0] < len(SETS), SET)
    fresh = Session(started=True, place=session.place, ordinal=session.ordinal, rule=session.rule, set=SETS[operand[0]])
    return fresh, ()


def hold_points(session, operand):
    points = encodings.numbers(operand, 2)
    refuse_unless(are_points(session.set, points), EXPONENTS)
    return session._replace(points=points, key=None, left=None, evaluations=None), ()


def hold_key(session, operand):
    refuse_unless(session.points is not None, NOT_HELD)
    key = encodings.read_key(operand)
    refuse_unless(is_key(key), KEY_VALUE)
    public = evaluation_residues(session.set, key, session.points)
    held = session._replace(key=key, left=SIGNATURES_OF_A_LOADED_KEY, evaluations=public)
    return held, evaluations(session.set, key, session.points)


def hold_mask(session, operand):
    refuse_unless(len(session.masks) < MOST_MASKS_HELD, EIGHT_MASKS_HELD)
    mask = encodings.numbers(operand, 2, signed=True)
    refuse_unless(is_mask(session.set, mask), MASK_COEFFICIENT)
    return session._replace(masks=session.masks + (mask,)), ()


def hold_message(session, operand):
    return session._replace(message=operand), ()


def sign(session, operand):
    needed = (session.points, session.key, session.message)
    refuse_unless(None not in needed, NOT_HELD)
    refuse_unless(session.left > 0, NONE_LEFT)
    s = session.set
    signed = signing.sign(s, session.key, session.points, session.masks, session.message, session.rule)
    refuse_unless(signed is not None, NO_MASK_PASSES)
    signature = encodings.write_signature(s, signed.challenge, signed.z)
    kept = session.masks[signed.passed_over + 1:]
    return session._replace(masks=kept, left=session.left - 1), (signed.passed_over, signature.hex().upper())


def check(session, operand):
    needed = (session.points, session.evaluations, session.message)
    refuse_unless(None not in needed, NOT_HELD)
    s = session.set
    entries, z = encodings.read_signature(s, operand)
    refuse_unless(encodings.are_entries(s, entries), CHALLENGE_INDEX)
    c = encodings.challenge_of(s, entries)
    verdict = signing.check(s, session.points, session.evaluations, session.message, c, z, session.rule)
    return session, (int(verdict),)


def hold_evaluations(session, operand):
    refuse_unless(session.points is not None, NOT_HELD)
    public = encodings.numbers(operand, 3)
    refuse_unless(are_evaluations(session.set, public), EVALUATION)
    return session._replace(evaluations=public, key=None, left=None), ()


def grant(session, operand):
    refuse_unless(session.key is not None, NOT_HELD)
    return session._replace(left=int.from_bytes(operand, "big")), ()


def choose_rule(session, operand):
    refuse_unless(operand[0] in RULES, RULE)
    return session._replace(rule=operand[0]), ()


PLAYED = {0x01: hold_set, 0x02: hold_points, 0x03: hold_key, 0x04: hold_mask, 0x05: hold_message, 0x06: sign, 0x07: check,
          0x08: hold_evaluations, 0x0A: grant, 0x0B: choose_rule}


def play_to_the_end(file):
    """What the session program prints for these bytes on standard input."""
    session, rows, printed = open_session(), bytearray(ROW_BUFFER_BYTES), b""
    while not session.ended:
        session, _ = play(session, file, rows)
        printed += rows[:rows.index(b"\n") + 1]
    return printed
