"""Ways to damage a good library call, by the argument that they change.

Each takes (rng, s, arguments) and changes the arguments in place. Whether the call is then refused,
and with which number, is for the reference to say: some leave a call good, at the edge of a rule.
"""

from reference import encodings


def put(values, at, value):
    """values with one entry replaced, of the same type."""
    changed = list(values)
    changed[at] = value
    return bytes(changed) if isinstance(values, (bytes, bytearray)) else changed


def place(rng, count):
    """An index below count: the first, the last or any."""
    return rng.choice((0, count - 1, rng.randrange(count)))


def longer_or_shorter(*names):
    return {label: change for name in names for label, change in lengths_of(name).items()}


def lengths_of(name):
    def shorten(rng, s, arguments):
        arguments[name] = arguments[name][:-1]

    def lengthen(rng, s, arguments):
        values = arguments[name]
        arguments[name] = values + (values[-1:] or type(values)([0]))

    def empty(rng, s, arguments):
        arguments[name] = arguments[name][:0]

    return {f"{name} short": shorten, f"{name} long": lengthen, f"{name} empty": empty}


def set_numbers():
    def change(choose):
        def to_number(rng, s, arguments):
            arguments["set"] = choose(rng)
        return to_number
    return {"set 5": change(lambda rng: 5), "set 255": change(lambda rng: 255),
            "set any": change(lambda rng: rng.randrange(256)),
            "set of another": change(lambda rng: rng.randrange(5))}


def rules():
    """Numbers that are a rule, whichever the call had, and numbers that are none."""
    def change(rule):
        def to_rule(rng, s, arguments):
            arguments["rule"] = rule
        return to_rule
    return {f"rule {rule}": change(rule) for rule in (0, 1, 2, 3, 255)}


def set_bytes(name):
    def change(number):
        def to_number(rng, s, arguments):
            if arguments[name]:
                byte = number if number is not None else rng.choice([n for n in range(5) if n != s.number])
                arguments[name] = put(arguments[name], 0, byte)
        return to_number

    def alone(rng, s, arguments):
        arguments[name] = arguments[name][:1]

    return {f"{name} of set 5": change(5), f"{name} of set 255": change(255),
            f"{name} of another set": change(None), f"{name} set byte alone": alone}


def damaged_points(rng, s, at, kind):
    """The exponents with one of the mistakes of refusal 4."""
    at = list(at)
    i = rng.randrange(len(at)) if at else 0
    if len(at) < 2:
        return at
    if kind == "equal":
        at[max(i, 1)] = at[max(i, 1) - 1]
    elif kind == "decreasing":
        at[max(i, 1)], at[max(i, 1) - 1] = at[max(i, 1) - 1], at[max(i, 1)]
    elif kind == "0":
        at[0] = 0
    elif kind == "N":
        at[-1] = s.N
    else:
        at[i] = rng.choice((0, s.N, s.N + 1, 32768, 65535))
    return at


POINT_MISTAKES = ("equal", "decreasing", "0", "N", "any")


def point_lists():
    def change(kind):
        def to_mistake(rng, s, arguments):
            arguments["points"] = damaged_points(rng, s, arguments["points"], kind)
        return to_mistake
    return {f"exponent {kind}": change(kind) for kind in POINT_MISTAKES}


def coefficients(name, values):
    """One entry of a list of numbers set to an edge value, by name."""
    def change(value):
        def to_value(rng, s, arguments):
            if arguments[name]:
                arguments[name] = put(arguments[name], place(rng, len(arguments[name])), value(s))
        return to_value
    return {f"{name} {label}": change(value) for label, value in values.items()}


def out_of_points(rng, s, arguments):
    """A buffer for t evaluations where N-1 are due."""
    arguments["out"] = arguments["out"][:s.t]


def key_bytes(rng, s, arguments):
    if len(arguments["secret_key"]) > 1:
        at = 1 + place(rng, len(arguments["secret_key"]) - 1)
        byte = rng.choice((0x02, 0x7F, 0x80, 0xFE, rng.randrange(256)))
        arguments["secret_key"] = put(arguments["secret_key"], at, byte)


def message_too_long(rng, s, arguments):
    arguments["message"] = bytes(65536)


def message_longest(rng, s, arguments):
    arguments["message"] = rng.randbytes(65535)


def message_other(rng, s, arguments):
    text = arguments["message"]
    arguments["message"] = put(text, 0, text[0] ^ 1) if text else b"\0"


# ── Masks ───────────────────────────────────────────────────────────────────────────────────────

MASK_EDGES = {"k": lambda s: s.k, "-k": lambda s: -s.k, "k+1": lambda s: min(s.k + 1, 32767),
              "-k-1": lambda s: -s.k - 1, "-32768": lambda s: -32768}


def no_mask(rng, s, arguments):
    arguments["masks"] = []


def nine_masks(rng, s, arguments):
    arguments["masks"] = [0] * (9 * s.N)


def bad_last_mask(rng, s, arguments):
    """Behind masks that pass: 6 all the same."""
    arguments["masks"] = [0] * (rng.randint(1, 7) * s.N) + arguments["masks"][:s.N]
    arguments["masks"][-rng.randint(1, s.N)] = -s.k - 1


# ── Public keys and signatures ──────────────────────────────────────────────────────────────────

def change_public_key(s, arguments, change):
    """The key with what change(points, evaluations) gives, where it has its right length."""
    data = arguments["public_key"]
    if len(data) != encodings.public_key_length(s):
        return
    at, values = encodings.read_public_key(s, data[1:])
    at, values = change(at, values)
    body = encodings.number_bytes(at, 2) + encodings.number_bytes(values, 3)
    arguments["public_key"] = data[:1] + body


def public_points():
    def change(kind):
        def to_mistake(rng, s, arguments):
            change_public_key(s, arguments, lambda at, values: (damaged_points(rng, s, at, kind), values))
        return to_mistake
    return {f"public exponent {kind}": change(kind) for kind in POINT_MISTAKES}


EVALUATION_EDGES = {"0": lambda s: 0, "q-1": lambda s: s.q - 1, "q": lambda s: s.q, "2^24-1": lambda s: (1 << 24) - 1}


def public_evaluations():
    def change(value):
        def to_value(rng, s, arguments):
            i = place(rng, s.t)
            change_public_key(s, arguments, lambda at, values: (at, put(values, i, value(s))))
        return to_value
    return {f"public evaluation {label}": change(value) for label, value in EVALUATION_EDGES.items()}


def swap_entries(rng, s, entries):
    i = place(rng, s.b - 1)
    entries[i], entries[i + 1] = entries[i + 1], entries[i]


def equal_entries(rng, s, entries):
    i = place(rng, s.b - 1)
    entries[i + 1] = entries[i] ^ rng.choice((0, 0x8000))


def index_at(at, index):
    def to_index(rng, s, entries):
        entries[at] = index(s) | rng.choice((0, 0x8000))
    return to_index


def index_any(rng, s, entries):
    entries[rng.randrange(s.b)] = rng.randrange(65536)


def sign_other(rng, s, entries):
    entries[rng.randrange(s.b)] ^= 0x8000


ENTRIES = {"entries swapped": swap_entries, "entries equal": equal_entries, "index 0": index_at(0, lambda s: 0),
           "index N-1": index_at(-1, lambda s: s.N - 1), "index N": index_at(-1, lambda s: s.N),
           "index 32767": index_at(-1, lambda s: 32767), "index any": index_any, "sign other": sign_other}


def encoded_entries():
    """The entries of a signature changed, where it has them."""
    def change(change_list):
        def changed(rng, s, arguments):
            data, end = arguments["signature"], 1 + 2 * s.b
            if len(data) >= end:
                entries = encodings.numbers(data[1:end], 2)
                change_list(rng, s, entries)
                arguments["signature"] = data[:1] + encodings.number_bytes(entries, 2) + data[end:]
        return changed
    return {label: change(change_list) for label, change_list in ENTRIES.items()}


def entry_lists():
    """A list of entries changed, where it has its right length."""
    def change(change_list):
        def changed(rng, s, arguments):
            if len(arguments["entries"]) == s.b:
                change_list(rng, s, arguments["entries"])
        return changed
    return {label: change(change_list) for label, change_list in ENTRIES.items()}


Z_EDGES = {"-32768": lambda s: -32768, "32767": lambda s: 32767, "k-b": lambda s: s.k - s.b,
           "k-b+1": lambda s: s.k - s.b + 1, "-(k-b)-1": lambda s: -(s.k - s.b) - 1}


def z_coefficients():
    def change(value):
        def to_value(rng, s, arguments):
            at = 1 + 2 * s.b + 2 * place(rng, s.N)
            data = arguments["signature"]
            if len(data) >= at + 2:
                new = value(s).to_bytes(2, "big", signed=True)
                arguments["signature"] = data[:at] + new + data[at + 2:]
        return to_value
    return {f"z {label}": change(value) for label, value in Z_EDGES.items()}


def flip(name):
    def flip_bit(rng, s, arguments):
        data = arguments[name]
        if data:
            at = rng.randrange(len(data))
            arguments[name] = put(data, at, data[at] ^ 1 << rng.randrange(8))
    return {f"{name} bit": flip_bit}


SECRET_KEYS = {**set_bytes("secret_key"), **longer_or_shorter("secret_key"), "key byte": key_bytes}
PUBLIC_KEYS = {**set_bytes("public_key"), **longer_or_shorter("public_key"), **public_points(), **public_evaluations(), **flip("public_key")}
SIGNATURES = {**set_bytes("signature"), **longer_or_shorter("signature"), **encoded_entries(), **z_coefficients(), **flip("signature")}

I16_EDGES = {"-32768": lambda s: -32768, "32767": lambda s: 32767}
I8_EDGES = {str(value): lambda s, value=value: value for value in (-128, -2, -1, 1, 2, 127)}
U32_EDGES = {**EVALUATION_EDGES, "2^24": lambda s: 1 << 24, "2^32-1": lambda s: (1 << 32) - 1}

DAMAGES = {
    "evaluate": {**set_numbers(), **point_lists(), **coefficients("coefficients", I16_EDGES),
                 **longer_or_shorter("coefficients", "points", "out")},
    "evaluate_all": {**set_numbers(), **coefficients("coefficients", I16_EDGES),
                     **longer_or_shorter("coefficients", "out"), "out of t": out_of_points},
    "draw": {**set_numbers(), **longer_or_shorter("pool", "out")},
    "public_key": {**SECRET_KEYS, **point_lists(), **longer_or_shorter("points", "out")},
    "sign": {**SECRET_KEYS, **point_lists(), **longer_or_shorter("points", "masks", "out"),
             **coefficients("masks", MASK_EDGES), "no mask": no_mask, "nine masks": nine_masks,
             "bad mask last": bad_last_mask, "message too long": message_too_long,
             "message longest": message_longest, **rules()},
    "check": {**PUBLIC_KEYS, **SIGNATURES, "message too long": message_too_long,
              "message longest": message_longest, "message other": message_other, **rules()},
    "read_secret_key": {**SECRET_KEYS, **flip("secret_key"), **longer_or_shorter("out")},
    "write_secret_key": {**set_numbers(), **coefficients("key", I8_EDGES), **longer_or_shorter("key", "out")},
    "read_public_key": {**PUBLIC_KEYS, **longer_or_shorter("points", "evaluations")},
    "write_public_key": {**set_numbers(), **point_lists(), **coefficients("evaluations", U32_EDGES),
                         **longer_or_shorter("points", "evaluations", "out")},
    "read_signature": {**SIGNATURES, **longer_or_shorter("entries", "z")},
    "write_signature": {**set_numbers(), **entry_lists(), **coefficients("z", Z_EDGES),
                        **longer_or_shorter("entries", "z", "out")},
}
