"""Each session through the kit's program and through the reference: every printed byte must agree, and the rows must give each key its account and be by
the rule in force."""

import subprocess
from collections import Counter

import key_life
import rule_in_force
import sessions
from reference.parameters import SETS
from reference.session import play_to_the_end

REFUSED_ROWS = {"01 2", "02 4", "03 10", "03 5", "04 8", "04 6", "06 10", "06 17", "06 9", "07 10", "07 12",
                "08 10", "08 7", "0A 10", "0B 18", "00 16", "00 13 where a command is due", "0 00 1", "0 00 15"}
REFUSED_ROWS |= {f"{command:02X} 3" for command in (*range(2, 9), 10)}
REFUSED_ROWS |= {f"{command:02X} 13" for command in (1, 2, 3, 4, 5, 7, 8, 10, 11)}
ACCEPTED_ROWS = {"00 0", "01 0", "02 0", "03 0 evaluations", "04 0", "05 0", "06 0 first mask",
                 "06 0 passed over", "07 0 yes", "07 0 no", "08 0", "0A 0", "0B 0"}
ENDS = {"03 0 with (q-1)/2": 1, "03 0 with -(q-1)/2": -1}
READINGS = (key_life, rule_in_force)


def form(row):
    """The row's form: command, number and what kind of fields."""
    ordinal, command, number, *fields = row.split(" ")
    if ordinal == "0":
        return f"0 {command} {number}"
    if number == "14":
        return "14"
    if (command, number) == ("00", "13"):
        return "00 13 where a command is due"
    kinds = {"03": "evaluations", "06": "first mask" if fields[:1] == ["0"] else "passed over",
             "07": "yes" if fields == ["1"] else "no"}
    return f"{command} {number} {kinds[command]}" if fields else f"{command} {number}"


def ends_in(row, s):
    """Which ends of the signed form a row of 03 prints."""
    _, command, _, *fields = row.split(" ")
    return {end for end, sign in ENDS.items() if command == "03" and str(sign * (s.q - 1) // 2) in fields}


def missing(forms, by_set):
    wanted = REFUSED_ROWS | ACCEPTED_ROWS | {"14"}
    gaps = [f"no row of form '{text}'" for text in sorted(wanted - set(forms))]
    in_each = ACCEPTED_ROWS.union(ENDS, *(reading.SITUATIONS for reading in READINGS))
    for number, seen in by_set.items():
        gaps += [f"no row of form '{text}' in set {number}" for text in sorted(in_each - seen)]
    return gaps


def first_difference(printed, wanted):
    for at, (a, b) in enumerate(zip(printed.split(b"\n"), wanted.split(b"\n")), 1):
        if a != b:
            return f"line {at} is {a[:80]!r}, reference {b[:80]!r}"
    return f"{len(printed)} bytes, reference {len(wanted)}"


def report(name, seed, file, text):
    print(f"sessions: DIFFERENCE: {text}")
    print(f"  file of {len(file)} bytes: {file[:60].hex()}{'…' if len(file) > 60 else ''}")
    print(f"  seed {seed}; replay: tests/run --seed {seed} --session '{name}'")


def run(seed, program, only=None):
    """True when all agree. Without program the reference runs alone, for the coverage."""
    forms, by_set, played = Counter(), {}, 0
    for name in [only] if only else sessions.names():
        file = sessions.make(seed, name)
        wanted = play_to_the_end(file)
        rows, number = wanted.decode().splitlines(), int(name.split("/")[0])
        seen = [form(row) for row in rows]
        forms.update(seen)
        in_set = by_set.setdefault(number, set())
        in_set.update(seen, *(ends_in(row, SETS[number]) for row in rows))
        for reading in READINGS:
            situations, fault = reading.read(file, rows)
            in_set |= situations
            if fault:
                report(name, seed, file, fault)
                return False
        played += 1
        if program:
            done = subprocess.run([program], input=file, stdout=subprocess.PIPE)
            if done.stdout != wanted or done.returncode != 0:
                text = first_difference(done.stdout, wanted)
                report(name, seed, file, f"{text}; exit status {done.returncode}")
                return False
    gaps = [] if only else missing(forms, by_set)
    for gap in gaps:
        print(f"sessions: NOT COVERED: {gap}")
    print("  " + ", ".join(f"{text}: {count}" for text, count in sorted(forms.items())))
    against = "agree with the reference" if program else "of the reference alone"
    print(f"sessions: {played} sessions with {sum(forms.values())} rows {against}, seed {seed}")
    return not gaps
