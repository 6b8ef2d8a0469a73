"""Seeded session files, good and damaged, in all five sets.

A session's name is SET/KIND/REPEAT; name and seed alone make it. A writer plays what it has written,
so that the next command can use what is held: most commands are accepted, and each mistake is meant.
"""

from random import Random

import material
from damages import POINT_MISTAKES, damaged_points, put
from reference import encodings
from reference.challenge import RULES
from reference.parameters import SETS
from reference.session import MOST_FILE_BYTES, NEED_NO_SET, ROW_BUFFER_BYTES, TAG_BYTES, open_session, play

# How often each kind is made, by set: sessions of the later sets are long.
REPEATS = (100, 16, 10, 8, 6)
MISTAKE = 0.12  # how often an operand is wrong in a walk


class Writer:
    def __init__(self, rng, s):
        self.rng, self.start = rng, s
        self.file = bytearray(TAG_BYTES)
        self.session, self.rows = open_session(), bytearray(ROW_BUFFER_BYTES)
        self.signature = None  # the operand for 07 that the last accepted 06 gives

    @property
    def set(self):
        return self.session.set or self.start

    def add(self, command, operand=b""):
        """Appends a command and plays it. Nothing is added after the session's end."""
        if self.session.ended:
            return
        self.file += bytes([command]) + operand
        self.session, answer = play(self.session, bytes(self.file), self.rows)
        if command == 0x06 and answer.number == 0:
            row = self.rows[:self.rows.index(b"\n")]
            self.signature = bytes.fromhex(row.split(b" ")[4].decode())[1:]


# ── Operands ────────────────────────────────────────────────────────────────────────────────────

def wrong(rng, mistakes):
    return rng.random() < mistakes


def set_operand(w, mistakes):
    if wrong(w.rng, mistakes):
        return bytes([w.rng.choice((5, 255, w.rng.randrange(256)))])
    return bytes([w.start.number])


def points_operand(w, mistakes):
    at = material.points(w.rng, w.set)
    if wrong(w.rng, mistakes):
        at = damaged_points(w.rng, w.set, at, w.rng.choice(POINT_MISTAKES))
    return encodings.number_bytes(at, 2)


def key_operand(w, mistakes):
    data = encodings.write_key(material.key(w.rng, w.set))
    if wrong(w.rng, mistakes):
        data = put(data, w.rng.randrange(len(data)), w.rng.choice((2, 0x80, 0xFE)))
    return data


def mask_operand(w, mistakes):
    y = material.mask(w.rng, w.set)
    if wrong(w.rng, mistakes):
        y[w.rng.randrange(len(y))] = w.rng.choice((-w.set.k - 1, min(w.set.k + 1, 32767), -32768))
    return encodings.number_bytes(y, 2, signed=True)


def message_operand(w, mistakes):
    return w.rng.randbytes(64)


def nothing(w, mistakes):
    return b""


def signature_operand(w, mistakes):
    """The last one made, one made with the held key under either rule, or one out of the blue; sometimes damaged."""
    s, held = w.set, w.session
    size = 2 * s.b + 2 * s.N
    if w.signature is not None and len(w.signature) == size and w.rng.random() < 0.6:
        data = w.signature
    elif held.key is not None and held.message is not None:
        data = material.signature(w.rng, s, held.key, held.points, held.message, material.any_rule(w.rng))[1:]
    else:
        entries = encodings.number_bytes(material.entries(w.rng, s), 2)
        data = entries + encodings.number_bytes(material.passing_mask(w.rng, s), 2, signed=True)
    if wrong(w.rng, 2 * mistakes):
        at = w.rng.choice((w.rng.randrange(size), w.rng.randrange(2 * s.b)))
        data = put(data, at, data[at] ^ 1 << w.rng.randrange(8))
    return data


def evaluations_operand(w, mistakes):
    s, held = w.set, w.session
    public = held.evaluations if held.evaluations and w.rng.random() < 0.7 else None
    public = list(public or material.public_evaluations(w.rng, s))
    if wrong(w.rng, mistakes):
        public[w.rng.randrange(s.t)] = w.rng.choice((s.q, s.q + 1, (1 << 24) - 1))
    return encodings.number_bytes(public, 3)


def grant_operand(w, mistakes):
    return w.rng.choice((0, 1, 2, 65535, w.rng.randrange(65536))).to_bytes(2, "big")


def rule_operand(w, mistakes):
    if wrong(w.rng, mistakes):
        return bytes([w.rng.choice((0, 3, 255, w.rng.randrange(256)))])
    return bytes([material.any_rule(w.rng)])


OPERANDS = {0x01: set_operand, 0x02: points_operand, 0x03: key_operand, 0x04: mask_operand,
            0x05: message_operand, 0x06: nothing, 0x07: signature_operand, 0x08: evaluations_operand,
            0x0A: grant_operand, 0x0B: rule_operand}


def add(w, command, mistakes=0.0):
    w.add(command, OPERANDS[command](w, mistakes))


def add_passing(w):
    """A mask that passes, whatever the key."""
    w.add(0x04, encodings.number_bytes(material.passing_mask(w.rng, w.set), 2, signed=True))


def grant(w, number):
    w.add(0x0A, number.to_bytes(2, "big"))


def choose(w, rule):
    w.add(0x0B, bytes([rule]))


def at_times_choose(w):
    """A rule, now and then, and at times what is none."""
    if w.rng.random() < 0.3:
        add(w, 0x0B, MISTAKE)


# ── Sessions ────────────────────────────────────────────────────────────────────────────────────

def begun(rng, s):
    """Set, points, key and message are held."""
    w = Writer(rng, s)
    for command in (0x01, 0x02, 0x03, 0x05):
        add(w, command)
    return w


def signing(rng, s):
    """Many 06 with masks passed over, each signature checked, sometimes by evaluations alone."""
    w = begun(rng, s)
    for _ in range(rng.randint(1, 4 if s.number == 0 else 2)):
        for _ in range(rng.randint(0, 4)):
            add(w, 0x04)
            at_times_choose(w)
        add(w, 0x06)
        if rng.random() < 0.2:
            add(w, 0x08)
        at_times_choose(w)
        add(w, 0x07, MISTAKE)
        if rng.random() < 0.3:
            add(w, 0x05)
    w.add(0x00)
    return bytes(w.file)


def key_at_end(sign):
    """A key with the evaluation (q-1)/2, or -(q-1)/2, at one of the points; its 03 prints it."""
    def make(rng, s):
        w = Writer(rng, s)
        add(w, 0x01)
        add(w, 0x02)
        f = material.key_evaluating_to(rng, s, rng.choice(w.session.points), sign * (s.q - 1) // 2)
        w.add(0x03, encodings.write_key(f))
        for command in (0x05, 0x04, 0x06, 0x07):
            add(w, command)
        w.add(0x00)
        return bytes(w.file)
    return make


def corners(rng, s):
    """Keys at the ends of -1..1, exponents 1 and N-1 among the points, masks at the ends of -k..k and within them; each signature is checked."""
    w = Writer(rng, s)
    at_times_choose(w)
    add(w, 0x01)
    w.add(0x02, encodings.number_bytes(material.points_with_ends(rng, s), 2))
    add(w, 0x05)
    for kind in ("all low", "all high", "first alone", "second alone", "last alone"):
        w.add(0x03, encodings.write_key(material.CORNERS[kind](rng, s, -1, 1)))
        mask = rng.choice((material.all_low, material.all_high, material.alternating))
        for bound in (s.k, s.k - 2 * s.b):
            w.add(0x04, encodings.number_bytes(mask(rng, s, -bound, bound), 2, signed=True))
        add(w, 0x06)
        w.add(0x07, w.signature)
    w.add(0x00)
    return bytes(w.file)


def passed_over(rng, s):
    """Masks that fail before one that passes; then 06 until 9; then 06 with none held."""
    w = begun(rng, s)
    at_times_choose(w)
    held = w.session
    for _ in range(rng.randint(1, 7)):
        y = material.failing_mask(rng, s, held.key, held.points, held.message, held.rule)
        w.add(0x04, encodings.number_bytes(y, 2, signed=True))
    for _ in range(rng.randint(1, 2)):
        add_passing(w)
    for _ in range(rng.randint(1, 4)):
        add(w, 0x06)
    w.add(0x00)
    return bytes(w.file)


def many_masks(rng, s):
    """The ninth is 8, good or not; after 06 places are free again."""
    w = begun(rng, s)
    for count in (9, 2):
        for _ in range(count):
            add(w, 0x04, MISTAKE)
        add(w, 0x06)
    w.add(0x00)
    return bytes(w.file)


def walk_on(w, steps, mistakes):
    commands = (0x01, 0x02, 0x03, 0x04, 0x04, 0x04, 0x05, 0x06, 0x06, 0x07, 0x07, 0x08, 0x0A, 0x0B)
    for _ in range(steps):
        add(w, w.rng.choice(commands), mistakes)
    return w


def walk(rng, s):
    """Any commands in any order; what is missing is 10."""
    w = Writer(rng, s)
    add(w, 0x01, MISTAKE)
    if rng.random() < 0.8:
        add(w, 0x01)
    walk_on(w, rng.randint(0, 40 if s.number == 0 else 10), MISTAKE)
    w.add(0x00)
    return bytes(w.file)


def repeated(rng, s):
    """01, 02, 03, 08 and 0B again, and what each forgets shows in a 06 and a 07."""
    w = begun(rng, s)
    for _ in range(rng.randint(1, 3)):
        for command in (0x04, 0x06, rng.choice((0x01, 0x02, 0x03, 0x05, 0x08, 0x0B)), 0x04, 0x07, 0x06):
            add(w, command, MISTAKE / 3)
    w.add(0x00)
    return bytes(w.file)


def forgets(rng, s):
    """A command that forgets, or that is refused and forgets nothing; some held again; 06 and 07."""
    w = begun(rng, s)
    for _ in range(rng.randint(1, 3)):
        add(w, 0x04)
    at_times_choose(w)
    add(w, rng.choice((0x01, 0x02, 0x03, 0x08)), rng.choice((0, 1)))
    for command in (0x02, 0x03, 0x08, 0x05, 0x04):
        if rng.random() < 0.3:
            add(w, command)
    for command in (0x07, 0x06, 0x07):
        add(w, command)
    w.add(0x00)
    return bytes(w.file)


def two_mistakes(rng, s):
    """Something is not held and the operand is wrong too: 10 comes before its own number."""
    w = Writer(rng, s)
    add(w, 0x01)
    for command in (0x02, 0x03, 0x05):
        if rng.random() < 0.4:
            add(w, command)
    for _ in range(3):
        add(w, rng.choice((0x03, 0x07, 0x08)), 1)
    w.add(0x00)
    return bytes(w.file)


def before_set(command):
    """3, also after a refused 01 and where the operand is short."""
    def make(rng, s):
        w = Writer(rng, s)
        for _ in range(rng.randint(0, 2)):
            w.add(0x01, bytes([rng.randint(5, 255)]))
        operand = OPERANDS[command](w, 0)
        w.add(command, operand[:rng.choice((0, len(operand)))])
        return bytes(w.file) + rng.choice((b"", b"\0"))
    return make


def cut_inside(command):
    """The file ends inside the operand, just behind the command or just before the last byte."""
    def make(rng, s):
        w = Writer(rng, s)
        if command not in NEED_NO_SET or rng.random() < 0.5:
            add(w, 0x01)
        if rng.random() < 0.5:  # else 10 is due as well, and 13 comes before it
            w = walk_on(begun(rng, s), rng.randint(0, 3), 0)
        operand = OPERANDS[command](w, MISTAKE)
        w.add(command, operand[:rng.choice((0, 1, len(operand) // 2, len(operand) - 1)) % len(operand)])
        return bytes(w.file)
    return make


def spent(rng, s):
    """0A without a key; then 06 behind 10, 17 and 9 in turn, with a mask and without; a refused 03 renews nothing, an accepted one all."""
    w = Writer(rng, s)
    for command in (0x01, 0x02, 0x0A, 0x03):
        add(w, command)
    grant(w, 0)
    for command in (0x06, 0x05, 0x06):
        add(w, command)
    add_passing(w)
    add(w, 0x06)
    add(w, 0x03, 1)
    add(w, 0x06)
    number = rng.randint(1, 3 if s.number == 0 else 1)
    grant(w, number)
    for _ in range(number + 1):
        add(w, 0x06)
        if rng.random() < 0.5:
            add(w, 0x06)
        add_passing(w)
    add(w, 0x03)
    add(w, 0x06)
    w.add(0x00)
    return bytes(w.file)


def lives(rng, s):
    """Several grants and loadings, with many 06: what forgets the key forgets its number, and what is refused takes nothing off."""
    w = begun(rng, s)
    for _ in range(rng.randint(10, 50) if s.number == 0 else 6):
        turn = rng.random()
        if turn < 0.2:
            grant(w, rng.choice((0, 1, 1, 2, 3, 65535)))
        elif turn < 0.3:
            for command in rng.choice(((0x03,), (0x08, 0x03), (0x02, 0x03), (0x01, 0x02, 0x03, 0x05))):
                add(w, command, MISTAKE)
        elif turn < 0.6:
            add_passing(w)
            at_times_choose(w)
        add(w, 0x06)
    w.add(0x00)
    return bytes(w.file)


def forgotten(rng, s):
    """A grant, and what forgets it with the key: a key that is loaded again has its own number."""
    w = begun(rng, s)
    ways = [(0x08, 0x03), (0x02, 0x03), (0x01, 0x02, 0x03, 0x05)]
    rng.shuffle(ways)
    for commands in ways:
        grant(w, rng.randint(0, 1))
        for command in commands:
            add(w, command)
        add_passing(w)
        add(w, 0x06)
    w.add(0x00)
    return bytes(w.file)


def many_signatures(rng, s):
    """As many 06 as were granted, each with its mask, and then more; then the largest grant."""
    w = begun(rng, s)
    number = rng.randint(10, 60) if s.number == 0 else 2
    grant(w, number)
    for _ in range(number + 2):
        if not w.session.masks:
            add_passing(w)
        add(w, 0x06)
    grant(w, 65535)
    add(w, 0x06)
    w.add(0x00)
    return bytes(w.file)


def rules(rng, s):
    """0B between 04, 06 and 07. Each signature is checked under its own rule, under the other, and under its own again; at the end by evaluations alone."""
    w = begun(rng, s)
    for rule in rng.choice(((2, 1), (1, 2, 1), (2, 2, 1))):
        for _ in range(rng.randint(1, 2)):
            add_passing(w)
        choose(w, rule)
        add(w, 0x06)
        for judge in (rule, material.other_rule(rule), rule):
            choose(w, judge)
            w.add(0x07, w.signature)
    w.add(0x08, encodings.number_bytes(w.session.evaluations, 3))
    for judge in RULES:
        choose(w, judge)
        w.add(0x07, w.signature)
    w.add(0x00)
    return bytes(w.file)


def rule_first(rule):
    """0B before any set. No 18 and no 01, refused or accepted, changes the rule: it shows in a 06 and a 07; then the same with the other rule."""
    def make(rng, s):
        w = Writer(rng, s)
        for each in (rule, material.other_rule(rule)):
            choose(w, each)
            add_no_rules(w)
            add(w, 0x01, 1)
            for command in (0x01, 0x02, 0x03, 0x05):
                add(w, command)
            add_passing(w)
            add_no_rules(w)
            add(w, 0x06)
            add_no_rules(w)
            w.add(0x07, w.signature)
        w.add(0x00)
        return bytes(w.file)
    return make


def add_no_rules(w):
    for number in w.rng.sample((0, 3, 255, w.rng.randint(4, 254)), w.rng.randint(1, 4)):
        choose(w, number)


def passing_under(rule):
    """A mask that passes under this rule alone: under the other it is passed over, or 9; under its own it signs."""
    def make(rng, s):
        w = Writer(rng, s)
        for command in (0x01, 0x02, 0x05):
            add(w, command)
        w.add(0x03, encodings.write_key(material.dense_key(rng, s)))
        held = w.session
        y = encodings.number_bytes(material.mask_passing_alone(rng, s, held.key, held.points, held.message, rule), 2, signed=True)
        choose(w, material.other_rule(rule))
        w.add(0x04, y)
        add_passing(w)
        add(w, 0x06)
        w.add(0x04, y)
        add(w, 0x06)
        w.add(0x04, y)
        choose(w, rule)
        add(w, 0x06)
        w.add(0x00)
        return bytes(w.file)
    return make


def rules_and_lives(rng, s):
    """0B between a grant and what it allows: the number left is carried over, under either rule it is spent, and 17 keeps the masks."""
    w = begun(rng, s)
    for rule in rng.sample(RULES, 2):
        choose(w, material.other_rule(rule))
        grant(w, 1)
        add_passing(w)
        add_passing(w)
        choose(w, rule)
        for _ in range(rng.randint(2, 3)):
            add(w, 0x06)
    grant(w, rng.randint(1, 3))
    add(w, 0x06)
    w.add(0x07, w.signature)
    w.add(0x00)
    return bytes(w.file)


def good(rng, s):
    return rng.choice((signing, passed_over, walk, repeated, lives, rules))(rng, s)


def cut(rng, s):
    file = good(rng, s)
    return file[:rng.randrange(len(file) + 1)]


def cut_by_one(rng, s):
    """The 00 is missing, or the operand's last byte before it."""
    return good(rng, s)[:-rng.randint(1, 2)]


def flipped(rng, s):
    file = good(rng, s)
    for _ in range(rng.randint(1, 3)):
        at = rng.randrange(len(file))
        file = put(file, at, file[at] ^ 1 << rng.randrange(8))
    return file


def unknown(rng, s):
    w = begun(rng, s)
    walk_on(w, rng.randint(0, 3), MISTAKE)
    return bytes(w.file) + bytes([rng.choice((9, 0x0C, 0x1A, 0x1B, 0xAF, 255, rng.randint(12, 255)))]) + b"\0"


def wrong_tag(rng, s):
    file = good(rng, s)
    at = rng.randrange(4)
    return rng.choice((file[:at], put(file, at, file[at] ^ 1 << rng.randrange(8)), file[1:]))


def after_end(rng, s):
    return good(rng, s) + rng.randbytes(rng.randint(1, 3))


def any_bytes(rng, s):
    length = rng.randint(0, 80)
    body = bytes(rng.choice((*range(12), rng.randrange(256))) for _ in range(length))
    return TAG_BYTES + bytes([1, s.number]) + body


def longest(rng, s):
    """65,536 bytes, played to their 00; or one more, which is 1 whatever the tag."""
    w = walk_on(begun(rng, s), 4, 0)
    file = bytes(w.file)
    while len(file) + 65 < MOST_FILE_BYTES:
        file += b"\x05" + rng.randbytes(64)
    file = file.ljust(MOST_FILE_BYTES - 1, b"\x06") + b"\0"
    return rng.choice((file, file, file + b"\0", b"?" + file, file + bytes(5000)))


KINDS = {"signing": signing, "passed over": passed_over, "many masks": many_masks, "walk": walk,
         "repeated": repeated, "forgets": forgets, "two mistakes": two_mistakes, "cut": cut,
         "cut by one": cut_by_one, "flipped": flipped, "unknown": unknown, "wrong tag": wrong_tag,
         "after end": after_end, "any bytes": any_bytes, "longest": longest,
         "upper end": key_at_end(1), "lower end": key_at_end(-1), "corners": corners,
         "spent": spent, "lives": lives, "forgotten": forgotten, "many signatures": many_signatures}
RULE_KINDS = {"rules": rules, "rules and lives": rules_and_lives, **{f"rule {rule} before any set": rule_first(rule) for rule in RULES},
              **{f"passing under {rule} alone": passing_under(rule) for rule in RULES}}
KINDS |= RULE_KINDS
KINDS |= {f"{command:02X} before 01": before_set(command) for command in (*range(2, 9), 10)}
KINDS |= {f"cut inside {command:02X}": cut_inside(command) for command in (1, 2, 3, 4, 5, 7, 8, 10, 11)}
# One for so many repeats; the kinds for one command are many.
SELDOM = {"longest": 10, "wrong tag": 3, "spent": 2, "forgotten": 4, "many signatures": 4, "upper end": 4, "lower end": 4, "corners": 4,
          **{kind: 4 for kind in RULE_KINDS if kind != "rules"},
          **{kind: 10 for kind in KINDS if "before 01" in kind or "cut inside" in kind}}
OFTEN = {"signing": 2, "walk": 3, "repeated": 2, "flipped": 2}


def names():
    for s in SETS:
        for kind in KINDS:
            repeats = -(-REPEATS[s.number] * OFTEN.get(kind, 1) // SELDOM.get(kind, 1))
            for repeat in range(repeats):
                yield f"{s.number}/{kind}/{repeat}"


def make(seed, name):
    set_number, kind, _ = name.split("/")
    return KINDS[kind](Random(f"{seed} session {name}"), SETS[int(set_number)])
