"""Lists of plays with any row buffers and swapped files, through crate harness and through the reference: answers and all memory around the
row buffers must agree. In every set some sign and check under each rule."""

import ctypes
from collections import Counter
from random import Random

import sessions
from reference.challenge import RULES
from reference.parameters import SETS
from reference.session import HAS_ENDED, ROW_BUFFER_AT_FAULT, ROW_BUFFER_BYTES, open_session, play

MEMORY = 16400  # bytes that each play's row buffer is the front of
LISTS = 150
AT_FAULT, ENDED = 256, 257  # crate harness: where an answer is no row's number
SIGNED_OR_CHECKED = {(f"{command} under {rule}", s.number) for command in ("06", "07") for rule in RULES for s in SETS}
WANTED = {("row", None), ("fault", None), ("ended", None), *SIGNED_OR_CHECKED}


def names_for(at):
    """Sessions of set 0, at times of all sets; for every third list those that change the rule, of each set in turn."""
    if at % 3 == 0:
        return [name for name in sessions.names() if name.startswith(f"{at // 3 % 5}/rules/")]
    return [name for name in sessions.names() if name.startswith("0/") or at % 5 == 0]


def make(seed, at):
    """The files, and the plays as (file, size of the row buffer)."""
    rng, names = Random(f"{seed} list of plays {at}"), names_for(at)
    files = [sessions.make(seed, rng.choice(names)) for _ in range(rng.randint(1, 3))]
    files = [file for file in files if len(file) < 60000] or [b"PSG1"]
    sizes = [ROW_BUFFER_BYTES] * 8 + [0, 1, ROW_BUFFER_BYTES - 1, ROW_BUFFER_BYTES + 1, MEMORY]
    swaps = rng.random() < 0.5
    plays, current = [], 0
    for _ in range(rng.randint(40 if at % 3 == 0 else 1, 60)):
        if swaps and rng.random() < 0.2:
            current = rng.randrange(len(files))
        plays.append((current, rng.choice(sizes)))
    return files, plays


def numbers(files, plays):
    """For each play where its file starts and ends in the files, one after the other, and its row buffer in the memory."""
    places, start = [], 0
    for file in files:
        places.append((start, start + len(file)))
        start += len(file)
    return [number for i, (file, size) in enumerate(plays) for number in (*places[file], MEMORY * i, MEMORY * i + size)]


def by_reference(files, plays, memory, kinds):
    """The answers, as crate harness gives them, and the memory after all plays; what each gave is counted."""
    session, answers = open_session(), []
    memory = bytearray(memory)
    for i, (file, size) in enumerate(plays):
        rows = memory[MEMORY * i:MEMORY * i + size]
        session, answer = play(session, files[file], rows)
        memory[MEMORY * i:MEMORY * i + size] = rows
        answers.append({ROW_BUFFER_AT_FAULT: AT_FAULT, HAS_ENDED: ENDED}.get(answer) or answer.number)
        kinds[kind(answers[-1], session, rows)] += 1
    return answers, bytes(memory)


def by_library(library, files, plays, memory):
    """The same of the code."""
    lent = [(ctypes.c_uint8 * sum(map(len, files))).from_buffer_copy(b"".join(files)),
            (ctypes.c_uint32 * (4 * len(plays)))(*numbers(files, plays)),
            (ctypes.c_uint8 * len(memory)).from_buffer_copy(memory),
            (ctypes.c_uint32 * len(plays))()]
    passed = []
    for slice_ in lent:
        passed += [ctypes.byref(slice_), ctypes.c_size_t(len(slice_))]
    library.harness_plays.restype = None
    library.harness_plays(*passed)
    return list(lent[3]), bytes(lent[2])


def difference(found, wanted):
    """The first play at which they differ, and what each has there."""
    for i, (mine, reference) in enumerate(zip(found[0], wanted[0])):
        part = slice(MEMORY * i, MEMORY * (i + 1))
        if mine != reference or found[1][part] != wanted[1][part]:
            return f"play {i}: {mine} {found[1][part][:40]!r}, reference {reference} {wanted[1][part][:40]!r}"
    return None


def kind(answer, session, rows):
    """What a play gave; of an accepted 06 or 07 under which rule, and in which set."""
    if answer in (AT_FAULT, ENDED):
        return "fault" if answer == AT_FAULT else "ended", None
    command = rows[:rows.index(b"\n")].split(b" ")[1].decode()
    return (f"{command} under {session.rule}", session.set.number) if command in ("06", "07") and answer == 0 else ("row", None)


def run(seed, shared):
    """True when all agree."""
    kinds, plays_made = Counter(), 0
    library = ctypes.CDLL(str(shared)) if shared else None
    for at in range(LISTS):
        files, plays = make(seed, at)
        memory = Random(f"{seed} memory {at}").randbytes(MEMORY * len(plays))
        wanted = by_reference(files, plays, memory, kinds)
        found = by_library(library, files, plays, memory) if library else wanted
        if found != wanted:
            print(f"lists of plays: DIFFERENCE in list {at}, {difference(found, wanted)}; again: tests/run --seed {seed}")
            return False
        plays_made += len(plays)
    for name, number in WANTED - set(kinds):
        print(f"lists of plays: NOT COVERED: {name}{'' if number is None else f' in set {number}'}")
    counts = Counter()
    for (name, _), count in kinds.items():
        counts[name] += count
    print(f"lists of plays: {LISTS} lists with {plays_made} plays {'agree with the reference' if library else 'of the reference alone'}: "
          + ", ".join(f"{name}: {count}" for name, count in sorted(counts.items())) + f", seed {seed}")
    return WANTED == set(kinds)
