"""The worked cases of document 01, held to this reference. Run first: a reference that misses the
document's own cases is no judge of the kit."""

import sys
from pathlib import Path
from random import Random

sys.path.insert(0, str(Path(__file__).resolve().parent.parent))

from reference import encodings, library, session  # noqa: E402
from reference.challenge import LOW_BYTE_RULE, RULES, THREE_BYTE_RULE, commitment_bytes, draw, pool_of, skip_bound  # noqa: E402
from reference.parameters import SETS, is_sound  # noqa: E402
from reference.polynomials import centred, evaluation, evaluation_residues, evaluations, product  # noqa: E402
from reference.signing import in_range, point, sign  # noqa: E402

HAND = SETS[0]
POINTS = [1, 2]
KEY = [1, -1, 0, 1, 0]
CHALLENGE = [0, 0, 1, -1, 0]


def test_sets():
    assert [s.number for s in SETS] == [0, 1, 2, 3, 4]
    assert all(is_sound(s) for s in SETS)
    assert [encodings.signature_length(SETS[i]) for i in (0, 4)] == [15, 2379]


def test_drawn_pools():
    start = bytes.fromhex("02 00000000000000 0007 000C FFFF 0003")
    for length in (64, 128, 512):
        assert draw(HAND, start.ljust(length, b"\0")) == CHALLENGE
    drawn_before_smaller = bytes.fromhex("01 00000000000000 0004 0001")  # the first index drawn gets the first sign
    assert draw(HAND, drawn_before_smaller.ljust(64, b"\0")) == [0, 1, 0, 0, -1]
    assert skip_bound(HAND) == 65535
    assert draw(HAND, bytes(64)) is None
    out = [7] * 5
    assert library.draw(0, bytes(64), out) == 11 and out == [7] * 5


def test_evaluations():
    assert evaluations(HAND, KEY, POINTS) == [7, -1]
    assert evaluation_residues(HAND, KEY, POINTS) == [7, 30]
    for key in ([0, -1, 0, -1, 0], [1, 0, 1, 0, 1]):
        assert evaluations(HAND, key, POINTS) == [-10, -6]
        assert evaluation_residues(HAND, key, POINTS) == [21, 25]


def test_evaluations_at_all_exponents():
    """The first key by hand, 1 - g^j + g^3j; then any coefficients of 16 bits, by the definition."""
    out = [99] * 4
    assert library.evaluate_all(0, KEY, out) == 0 and out == [7, -1, 9, -11]
    rng = Random(3)
    for s in SETS:
        a, out = [rng.randint(-32768, 32767) for _ in range(s.N)], [99] * (s.N - 1)
        assert library.evaluate_all(s.number, a, out) == 0 and out == [evaluation(s, a, j) for j in range(1, s.N)]
        for room in (0, s.t, s.N - 2, s.N):
            out = [99] * room
            assert library.evaluate_all(s.number, a, out) == 1 and out == [99] * room
        assert library.evaluate_all(s.number, a[1:], [99] * (s.N - 1)) == 1
    assert library.evaluate_all(5, [], []) == 2


def test_the_signed_form_is_exact_at_both_ends():
    for s in SETS:
        half = (s.q - 1) // 2
        assert [centred(s, value) for value in (0, half, half + 1, s.q - 1)] == [0, half, -half, -1]
        assert [centred(s, value) for value in (-half - 1, -half, -1, -s.q)] == [half, -half, -1, 0]


def test_quick_evaluations_are_the_definition():
    rng = Random(1)
    for s in SETS:
        for low, high in ((-32768, 32767), (-32768, -32768), (32767, 32767), (-1, 1)):
            a = [rng.randint(low, high) for _ in range(s.N)]
            points = [1, s.N - 1] + rng.sample(range(1, s.N), 3)
            assert evaluations(s, a, points) == [evaluation(s, a, j) for j in points]
            assert evaluation_residues(s, a, points) == [evaluation(s, a, j) % s.q for j in points]


def test_products_and_masks():
    assert product(HAND, KEY, CHALLENGE) == [1, -1, 1, -2, 1]
    assert point(HAND, KEY, CHALLENGE, [3, 4, -5, 2, 0]) == [4, 3, -4, 0, 1]
    assert in_range(HAND, [4, 3, -4, 0, 1])
    out = point(HAND, KEY, CHALLENGE, [3, 4, -6, 2, 0])
    assert out[2] == -5 and not in_range(HAND, out)


def test_two_keys_one_point():
    c = [0, 0, 1, 1, 0]
    pairs = (([0, -1, 0, -1, 0], [5, 0, -4, 0, -2]), ([1, 0, 1, 0, 1], [3, -2, -6, -2, -4]))
    for key, mask in pairs:
        assert point(HAND, key, c, mask) == [4, -1, -4, -1, -3]
        assert evaluations(HAND, mask, POINTS) == [-12, -13]


def test_encoded_signature():
    z = point(HAND, KEY, CHALLENGE, [3, 4, -5, 2, 0])
    encoded = bytes.fromhex("00 0002 8003 0004 0003 FFFC 0000 0001")
    assert encodings.write_signature(HAND, CHALLENGE, z) == encoded
    entries, z_read = encodings.read_signature(HAND, encoded[1:])
    assert encodings.challenge_of(HAND, entries) == CHALLENGE and z_read == z


def test_accepted_entries():
    """The indices 2 and 3; one index twice, with one sign and with both; decreasing; N."""
    rows = (([0x0002, 0x8003], True), ([0x0002, 0x0002], False), ([0x0002, 0x8002], False), ([0x8003, 0x0002], False), ([0x0002, 0x0005], False))
    for entries, accepted in rows:
        assert encodings.are_entries(HAND, entries) == accepted


def test_readers_and_writers():
    """The encodings of the first case: each reader and its writer."""
    cases = ((library.read_secret_key, library.write_secret_key, "00 01FF000100", (KEY,)),
             (library.read_public_key, library.write_public_key, "00 0001 0002 000007 00001E", (POINTS, [7, 30])),
             (library.read_signature, library.write_signature, "00 0002 8003 0004 0003 FFFC 0000 0001",
              ([2, 0x8003], [4, 3, -4, 0, 1])))
    for read, write, digits, parts in cases:
        encoded = bytes.fromhex(digits)
        buffers = tuple([9] * len(part) for part in parts)
        assert read(encoded, *buffers) == 0 and buffers == parts
        out = bytearray(len(encoded))
        assert write(0, *parts, out) == 0 and out == encoded
        assert read(encoded[:-1], *buffers) == write(0, *parts, out[1:]) == 1 and buffers == parts


def test_pool_of_the_message():
    for rule in RULES:
        pool = pool_of([0, 255], b"m", rule)
        assert len(pool) == 512 and pool != pool_of([0, 255], b"n", rule) and pool != pool_of([255, 0], b"m", rule)
        assert (pool == pool_of([256, 511], b"m", rule)) == (rule == LOW_BYTE_RULE)


def test_commitment_bytes_by_rule():
    """Request #106, by hand; and two commitments of set 1 that differ by 256 in one evaluation."""
    commitment = [0, 7, 255, 256, 0x030201, 775936]
    assert commitment_bytes(commitment, LOW_BYTE_RULE) == bytes.fromhex("00 07 FF 00 01 00")
    assert commitment_bytes(commitment, THREE_BYTE_RULE) == bytes.fromhex("000000 070000 FF0000 000100 010203 00D70B")
    s = SETS[1]
    one = [3879 * i for i in range(s.t)]
    for at in range(s.t):
        other = one[:at] + [one[at] + 256] + one[at + 1:]
        assert max(other) < s.q
        assert commitment_bytes(one, LOW_BYTE_RULE) == commitment_bytes(other, LOW_BYTE_RULE)
        assert commitment_bytes(one, THREE_BYTE_RULE) != commitment_bytes(other, THREE_BYTE_RULE)


def test_signed_is_checked_in_every_set():
    """Under its own rule the check says yes; under the other it judges by that one, which in sets 1 to 4 draws another challenge."""
    rng = Random(2)
    for s in SETS:
        points = sorted(rng.sample(range(1, s.N), s.t))
        key = [rng.randint(-1, 1) for _ in range(s.N)]
        small = s.k - 2 * s.b
        mask = [rng.randint(-small, small) for _ in range(s.N)]
        public = encodings.write_public_key(s, points, evaluation_residues(s, key, points))
        for rule, other in (RULES, RULES[::-1]):
            signed = sign(s, key, points, [mask], b"a message", rule)
            signature = encodings.write_signature(s, signed.challenge, signed.z)
            assert library.check(public, b"a message", signature, rule) == 256
            assert library.check(public, b"A message", signature, rule) == 0
            same_challenge = sign(s, key, points, [mask], b"a message", other).challenge == signed.challenge
            assert library.check(public, b"a message", signature, other) == (256 if same_challenge else 0)
            assert s.number == 0 or not same_challenge


def test_the_rule_in_the_library():
    """18 behind each length and ahead of 4, in both entries; a refused call leaves its buffer."""
    secret, signature = bytes.fromhex("00 01FF000100"), bytes.fromhex("00 0002 8003 0004 0003 FFFC 0000 0001")
    public, with_exponent_9 = bytes.fromhex("00 0001 0002 000007 00001E"), bytes.fromhex("00 0001 0009 000007 00001E")
    for rule in (0, 3, 255):
        for points in (POINTS, [1, 9]):
            out = bytearray(15)
            assert library.sign(secret, points, [0] * 5, b"m", out, rule) == 18 and out == bytes(15)
            assert library.sign(secret, points, [0] * 4, b"m", out, rule) == 1
            assert library.sign(secret, points, [], bytes(65536), out, rule) == 1
            assert library.sign(b"\5" + secret[1:], points, [], b"m", out, rule) == 2
        for key in (public, with_exponent_9):
            assert library.check(key, b"m", signature, rule) == 18
            assert library.check(key, b"m", signature[:-1], rule) == 1
            assert library.check(key, bytes(65536), signature, rule) == 1
            assert library.check(key, b"m", b"\1" + signature[1:], rule) == 2
    for rule in RULES:
        assert library.sign(secret, [1, 9], [0] * 5, b"m", bytearray(15), rule) == 4
        assert library.check(with_exponent_9, b"m", signature, rule) == 4


TRANSCRIPT_FILE = bytes.fromhex(
    "50534731 0100 0200010002 0301FF000100 0400030004FFFA00020000 0400070000000000000000 06 00")
TRANSCRIPT = b"1 01 0\n2 02 0\n3 03 0 7 -1\n4 04 0\n5 04 6\n6 06 10\n7 00 0\n"


def test_session_transcript():
    assert session.play_to_the_end(TRANSCRIPT_FILE) == TRANSCRIPT


def test_before_the_first_command_and_at_the_end():
    played = session.play_to_the_end
    assert played(b"") == played(b"PSG") == played(b"PSG2\0") == b"0 00 15\n"
    assert played(b"PSG1".ljust(65537, b"\0")) == b"0 00 1\n"
    assert played(b"PSG1".ljust(65536, b"\0")) == b"1 00 16\n"
    assert played(b"PSG1") == b"1 00 13\n"
    assert played(b"PSG1\xab") == b"1 AB 14\n"
    assert played(b"PSG1\x06") == b"1 06 3\n"
    assert played(b"PSG1\1\5\1\0\2\0") == b"1 01 2\n2 01 0\n3 02 13\n"


def test_grants():
    """Request #105: the tests of 0A in order, and those of 06 with the key of the document's session, the message held last and no mask."""
    played = session.play_to_the_end
    assert played(b"PSG1\x09") == b"1 09 14\n" and played(b"PSG1\x0a") == b"1 0A 3\n"
    assert played(b"PSG1\1\0\x0a\0") == b"1 01 0\n2 0A 13\n"
    assert played(b"PSG1\1\0\x0a\0\0\0") == b"1 01 0\n2 0A 10\n3 00 0\n"
    loaded = bytes.fromhex("50534731 0100 0200010002 0301FF000100")
    for number, refusal in ((0, b"17"), (1, b"9"), (65535, b"9")):
        granted = loaded + b"\x0a" + number.to_bytes(2, "big") + b"\6\5" + bytes(64) + b"\6\6"
        assert played(granted).endswith(b"4 0A 0\n5 06 10\n6 05 0\n7 06 %b\n8 06 %b\n9 00 13\n" % (refusal, refusal))
        assert played(granted + b"\3\2\0\0\0\0\6").endswith(b"9 03 5\n10 06 %b\n11 00 13\n" % refusal)
        assert played(granted + loaded[11:] + b"\6").endswith(b"9 03 0 7 -1\n10 06 9\n11 00 13\n")


def test_the_rule_in_force():
    """Request #106: the tests of 0B in order, without a set and with one; what it leaves as it was, and what leaves it in force."""
    played, play = session.play_to_the_end, session.play
    assert played(b"PSG1\x0b") == b"1 0B 13\n" and played(b"PSG1\1\0\x0b") == b"1 01 0\n2 0B 13\n"
    assert played(b"PSG1\x0c\1") == b"1 0C 14\n"
    for number in range(256):
        expected = b"0" if number in RULES else b"18"
        assert played(b"PSG1\x0b%b\0" % bytes([number])) == b"1 0B %b\n2 00 0\n" % expected
    loaded = TRANSCRIPT_FILE[:28] + b"\5" + bytes(64) + b"\x0a\0\7"  # set, points, key, a mask, the message and a grant
    held, rows = session.open_session(), bytearray(16384)
    assert held.rule == LOW_BYTE_RULE
    for _ in range(6):
        held, _ = play(held, loaded, rows)
    for number, rule in ((2, 2), (0, 2), (3, 2), (1, 1), (255, 1), (2, 2)):
        loaded += bytes([0x0B, number])
        after, _ = play(held, loaded, rows)
        assert after == held._replace(place=len(loaded), ordinal=held.ordinal + 1, rule=rule)
        held = after
    again, _ = play(held, loaded + b"\1\0", rows)
    assert again == session.Session(started=True, place=held.place + 2, ordinal=held.ordinal + 1, set=HAND, rule=2)


def test_lent_rows():
    """Row buffers of the wrong length, bytes behind the row, another file, plays after the end."""
    opened = session.open_session()
    for length in (0, 16383, 16385):
        short = bytearray(b"\xee" * length)
        after, answer = session.play(opened, b"", short)
        assert after == opened and answer == session.ROW_BUFFER_AT_FAULT
        assert short == b"\xee" * length
    rows = bytearray(b"\xee" * 16384)
    second, answer = session.play(opened, TRANSCRIPT_FILE, rows)
    assert answer == session.Row(0) and rows == b"1 01 0\n" + b"\xee" * 16377
    for shorter in (b"", b"no tag", bytes(6)):
        ended, answer = session.play(second, shorter, rows)
        assert answer == session.Row(13) and rows.startswith(b"2 00 13\n\xee")
    longer, answer = session.play(second, bytes(6) + b"\x01\x03".ljust(70000, b"\0"), rows)
    assert answer == session.Row(0) and longer.set == SETS[3]
    before = bytes(rows)
    assert session.play(ended, TRANSCRIPT_FILE, rows) == (ended, session.HAS_ENDED)
    assert session.play(ended, b"", bytearray(3)) == (ended, session.ROW_BUFFER_AT_FAULT)
    assert rows == before


def main():
    cases = [(name, case) for name, case in sorted(globals().items()) if name.startswith("test_")]
    for name, case in cases:
        try:
            case()
        except AssertionError:
            print(f"reference: {name} fails")
            raise
    print(f"reference: {len(cases)} groups of the documents' cases hold")


if __name__ == "__main__":
    main()
