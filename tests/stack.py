"""The stack that a call needs: the least stack of a thread in which each function of the library runs, and plays of each command, held to what the header
and README promise; and the player under a limit. Over all sets and both rules, with a short message and the longest, accepted calls and calls refused by each
number. bench/stack prints the figures."""

import resource
import subprocess
from array import array
from pathlib import Path
from random import Random
from tempfile import TemporaryDirectory

import library_calls
import material
import sessions
from building import REPOSITORY, c_program, program
from c_library import ENTRIES, as_fed, fed
from compare_calls import ACCEPTED, REFUSALS
from damages import DAMAGES
from headers import numbers_in
from reference import encodings
from reference.challenge import RULES
from reference.library import MOST_MASKS, MOST_MESSAGE_BYTES
from reference.parameters import SETS
from reference.session import MESSAGE_BYTES, MOST_FILE_BYTES, ROW_BUFFER_BYTES, TAG_BYTES, operand_length

OF_A_PLAY, OF_THE_FILE = 256, 64  # KiB: what one call of play may need, and what the player's main holds besides
PLAYS = len(ENTRIES)  # harness_plays, for tests/stack.c


def of_a_function():
    return int(numbers_in("include/passign.h", r"#define PASSIGN_(STACK) (\d+)")["STACK"]) // 1024


# ── Calls of the library ────────────────────────────────────────────────────────────────────────

def of_check(rng, s, text, rule):
    f, at = material.key(rng, s), material.points(rng, s)
    yield library_calls.with_signature(s, f, at, text, material.signature(rng, s, f, at, text, rule), rule)


def of_sign(rng, s, text, rule):
    """One mask passes; the last of eight; none of eight."""
    f, at = material.key(rng, s), material.points(rng, s)
    passing, failing = material.passing_mask(rng, s), material.failing_mask(rng, s, f, at, text, rule)
    for masks in ([passing], [failing] * (MOST_MASKS - 1) + [passing], [failing] * MOST_MASKS):
        yield library_calls.with_masks(rng, s, f, at, masks, text, rule)


def under_each_rule(make, rng, s):
    for rule in RULES:
        for size in (MESSAGE_BYTES, MOST_MESSAGE_BYTES):
            yield from make(rng, s, rng.randbytes(size), rule)


def good_calls(rng, s, entry):
    if entry in ("check", "sign"):
        yield from under_each_rule({"check": of_check, "sign": of_sign}[entry], rng, s)
    elif entry == "draw":
        yield from (library_calls.with_pool(rng, s, pool) for pool in (rng.randbytes(512), bytes(512)))  # the second is spent
    else:
        yield library_calls.GOOD[entry](rng, s)


def calls_of(seed, entry):
    """Each good call, and the first with each damage."""
    for s in SETS:
        rng = Random(f"{seed} stack of {entry} in set {s.number}")
        good = list(good_calls(rng, s, entry))
        yield from good
        for damage in DAMAGES[entry].values():
            damaged = {name: values if isinstance(values, int) else values[:] for name, values in good[0].items()}
            damage(rng, s, damaged)
            yield damaged


def all_seen(entry, answers):
    """Whether it answered with each refusal, and accepted."""
    return answers >= REFUSALS[entry] | ACCEPTED.get(entry, {0})


# ── Plays ───────────────────────────────────────────────────────────────────────────────────────

# By command, sessions as words of which each is one play, and the number in the last one's row. A command alone is good, with ! it has a wrong operand, with - an
# operand that is short by a byte; see words_of for the others. A session opens with a 0B that puts the rule in force.
ALL_HELD = "01 02 03 05"
SESSIONS = {
    "00": {"00": 0, "end+": 16, "nothing": 13},
    "01": {"01": 0, "01!": 2, "01-": 13},
    "02": {"01 02": 0, "02": 3, "01 02!": 4, "01 02-": 13},
    "03": {"01 02 03": 0, "03": 3, "01 03": 10, "01 02 03!": 5, "01 02 03-": 13},
    "04": {"01 04": 0, "04": 3, "01 04!": 6, "01" + 9 * " 04": 8, "01 04-": 13},
    "05": {"01 05": 0, "05": 3, "01 05-": 13},
    "06": {f"{ALL_HELD} 04 06": 0, f"{ALL_HELD}{7 * ' fails'} 04 06": 0, "06": 3, "01 06": 10, f"{ALL_HELD} none-left 04 06": 17, f"{ALL_HELD} 06": 9,
           f"{ALL_HELD}{8 * ' fails'} 06": 9},
    "07": {f"{ALL_HELD} 07": 0, "01 02 08 05 07": 0, "07": 3, "01 07": 10, f"{ALL_HELD} 07!": 12, f"{ALL_HELD} 07-": 13},
    "08": {"01 02 08": 0, "08": 3, "01 08": 10, "01 02 08!": 7, "01 02 08-": 13},
    "0A": {"01 02 03 0A": 0, "0A": 3, "01 0A": 10, "01 02 03 0A-": 13},
    "0B": {"0B": 0, "0B!": 18, "0B-": 13},
    "an unknown one": {"unknown": 14, "01 unknown": 14},
}


def words_of(s, rule):
    """The bytes of each word, from the example session of the set, but 08, 0A and 0B, which are not in it."""
    file, at, words = (REPOSITORY / f"examples/sessions/set-{s.number}.session").read_bytes(), len(TAG_BYTES), {}
    while at < len(file):
        end = at + 1 + operand_length(s, file[at])
        words[f"{file[at]:02X}"] = file[at:end]  # of the two masks the last, which passes
        at = end
    words.update({"08": b"\x08" + bytes(3 * s.t), "0A": b"\x0a\xff\xff", "0B": bytes((0x0B, rule))})
    words.update({f"{word}-": piece[:-1] for word, piece in words.items() if len(piece) > 1})
    words.update({"01!": b"\x01\x05", "02!": b"\x02" + bytes(2 * s.t), "03!": b"\x03" + b"\x02" * s.N, "04!": b"\x04" + b"\x80\x00" * s.N,
                  "07!": b"\x07" + b"\x7f\xff" * s.b + bytes(2 * s.N), "08!": b"\x08" + b"\xff" * 3 * s.t, "0B!": b"\x0b\x03"})
    return {**words, "fails": b"\x04" + encodings.number_bytes([s.k] * s.N, 2), "none-left": b"\x0a\0\0", "end+": b"\0\0", "nothing": b"", "unknown": b"\x09"}


def plays_of(file, count):
    """So many plays of a file, as tests/stack.c reads them."""
    return fed(PLAYS, 0, [array("B", file), array("I", count * [0, len(file), 0, ROW_BUFFER_BYTES]), array("B", bytes(ROW_BUFFER_BYTES)),
                          array("I", count * [0])])


def session_calls(command):
    """Each session's plays, and the number in the last row."""
    for s in SETS:
        for rule in RULES:
            words = words_of(s, rule)
            for session, number in SESSIONS[command].items():
                pieces = ["0B", *session.split()]
                yield plays_of(TAG_BYTES + b"".join(words[word] for word in pieces), len(pieces)), number


def whole_sessions(seed):
    """Those that sign, and check with yes and no, under both rules; a file without the tag, and one that is too long."""
    for s in SETS:
        yield plays_of(sessions.make(seed, f"{s.number}/rules/0"), 60), 257  # crate harness: the session has ended
    yield plays_of(b"PSG0", 1), 15
    yield plays_of(TAG_BYTES + bytes(MOST_FILE_BYTES), 1), 1


# ── Figures ─────────────────────────────────────────────────────────────────────────────────────

def least_for(measure, calls):
    """The answers, and the least stack of a thread in which all calls run, in KiB."""
    done = subprocess.run([measure], input=b"".join(calls), stdout=subprocess.PIPE, stderr=subprocess.PIPE)
    lines = [line.split() for line in done.stdout.decode().splitlines()]
    if done.returncode != 0 or len(lines) != len(calls):
        raise RuntimeError(f"call {len(lines)} of {len(calls)}, exit status {done.returncode}: {done.stderr.decode()}")
    return [int(answer) for answer, _ in lines], int(lines[-1][1])


def figures_of_functions(seed, measure):
    """Name and figure of each function."""
    for entry in ENTRIES:
        answers, found = least_for(measure, [as_fed(entry, arguments) for arguments in calls_of(seed, entry)])
        if not all_seen(entry, set(answers)):
            raise RuntimeError(f"passign_{entry} never answers {sorted((REFUSALS[entry] | ACCEPTED.get(entry, {0})) - set(answers))}")
        yield f"passign_{entry}", found


def figures_of_plays(seed, measure):
    """Of plays up to each command, and of whole sessions."""
    for name, calls in [*((f"plays up to {command}", session_calls(command)) for command in SESSIONS), ("plays of whole sessions", whole_sessions(seed))]:
        calls, numbers = zip(*calls)
        answers, found = least_for(measure, calls)
        if answers != list(numbers):
            raise RuntimeError(f"{name} give {answers}, not {list(numbers)}")
        yield name, found


def player_runs_in(kib, session):
    """Whether the player gives the session's rows under this limit."""
    def limit():
        resource.setrlimit(resource.RLIMIT_STACK, (kib * 1024, kib * 1024))
    done = subprocess.run([program("play")], input=session.read_bytes(), stdout=subprocess.PIPE, preexec_fn=limit, env={})
    return done.returncode == 0 and done.stdout == session.with_suffix(".rows").read_bytes()


def least_for_the_player(session):
    fails, works = 0, 8192
    while works - fails > 4:
        middle = (fails + works) // 2
        fails, works = (fails, middle) if player_runs_in(middle, session) else (middle, works)
    return works


SIGNED_AND_CHECKED = REPOSITORY / "examples/sessions/set-4.session"


def figures(seed):
    """Name, figure and promise, in KiB, of all."""
    with TemporaryDirectory() as folder:
        measure = c_program("tests/stack.c", Path(folder) / "stack", "-pthread", crates=("passign_c", "harness"))
        yield from ((name, found, of_a_function()) for name, found in figures_of_functions(seed, measure))
        yield from ((name, found, OF_A_PLAY) for name, found in figures_of_plays(seed, measure))
    yield "the player, with its file", least_for_the_player(SIGNED_AND_CHECKED), OF_A_PLAY + OF_THE_FILE


def told_in_readme():
    """Whether README promises the same."""
    return f"runs in {of_a_function()} KiB of stack (`PASSIGN_STACK`), one call of `play` in {OF_A_PLAY} KiB" in (REPOSITORY / "README.md").read_text()


def run(seed):
    """True when each keeps to its promise."""
    if not told_in_readme():
        print(f"stack: DIFFERENCE: README does not promise {of_a_function()} KiB for a function and {OF_A_PLAY} for one call of play")
        return False
    try:
        found = list(figures(seed))
    except RuntimeError as error:
        print(f"stack: DIFFERENCE: {error}; again: tests/run --seed {seed}")
        return False
    kept = player_runs_in(OF_A_PLAY + OF_THE_FILE, SIGNED_AND_CHECKED)
    for name, needed, promised in found:
        if needed > promised:
            print(f"stack: DIFFERENCE: {name} need{'' if name.startswith('plays') else 's'} {needed} KiB, promised are {promised}")
            kept = False
    plays = max(needed for name, needed, _ in found if name.startswith("plays"))
    print("stack: " + ", ".join(f"{name} {needed}" for name, needed, _ in found if name.startswith("passign_")) + f" KiB, promised are {of_a_function()}; "
          f"plays {plays}, {OF_A_PLAY}; the player {found[-1][1]}, {OF_A_PLAY + OF_THE_FILE}, seed {seed}")
    return kept
