"""Document 01, "Encodings". High byte first; signed 16-bit numbers are two's complement.

Readers take bytes of the right length, without the set byte: what a session's operand has too.
"""

KEY_VALUES = {0x00: 0, 0x01: 1, 0xFF: -1}


def secret_key_length(s):
    return 1 + s.N


def public_key_length(s):
    return 1 + 2 * s.t + 3 * s.t


def signature_length(s):
    return 1 + 2 * s.b + 2 * s.N


def numbers(data, width, signed=False):
    parts = (data[at:at + width] for at in range(0, len(data), width))
    return [int.from_bytes(part, "big", signed=signed) for part in parts]


def number_bytes(values, width, signed=False):
    return b"".join(value.to_bytes(width, "big", signed=signed) for value in values)


def read_key(data):
    """The key's coefficients; None stands for a byte that is not allowed."""
    return [KEY_VALUES.get(byte) for byte in data]


def write_key(f):
    return bytes(value % 256 for value in f)


def write_secret_key(s, f):
    return bytes([s.number]) + write_key(f)


def read_public_key(s, data):
    """The exponents and the evaluations."""
    return numbers(data[:2 * s.t], 2), numbers(data[2 * s.t:], 3)


def write_public_key(s, points, public_evaluations):
    return bytes([s.number]) + number_bytes(points, 2) + number_bytes(public_evaluations, 3)


def read_signature(s, data):
    """The challenge entries as encoded, and the coefficients of z."""
    return numbers(data[:2 * s.b], 2), numbers(data[2 * s.b:], 2, signed=True)


def are_entries(s, entries):
    """Index below N and strictly increasing."""
    indices = [entry & 0x7FFF for entry in entries]
    return all(i < s.N for i in indices) and all(a < b for a, b in zip(indices, indices[1:]))


def challenge_of(s, entries):
    challenge = [0] * s.N
    for entry in entries:
        challenge[entry & 0x7FFF] = -1 if entry & 0x8000 else 1
    return challenge


def entries_of(challenge):
    return [i | (0x8000 if sign < 0 else 0) for i, sign in enumerate(challenge) if sign]


def write_entries(s, entries, z):
    """A signature of challenge entries as encoded."""
    return bytes([s.number]) + number_bytes(entries, 2) + number_bytes(z, 2, signed=True)


def write_signature(s, challenge, z):
    return write_entries(s, entries_of(challenge), z)
