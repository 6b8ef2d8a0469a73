"""examples/marker.c, built plain and under the address and undefined-behaviour sanitizers, on good, damaged and wrong-set files and under every kind
of rule: its row, its exit status and its refusal number must be what the reference says, and the number's text the header's."""

import subprocess
from pathlib import Path
from random import Random
from tempfile import TemporaryDirectory

import headers
import material
from building import REPOSITORY, SANITIZERS, c_program
from damages import put
from reference.challenge import RULES
from reference.library import check
from reference.parameters import SETS

FILES = ("public_key", "message", "signature")
NOT_A_NUMBER = ("", " 1", "1 ", "+1", "-1", "1.0", "0x1", "one", "256", "1000", "4294967297", "signature")


def good(rng, s, rule):
    f, at, text = material.key(rng, s), material.points(rng, s), rng.randbytes(rng.choice((0, 1, 64, 111, 112, 5000)))
    return material.public_key(s, f, at), text, material.signature(rng, s, f, at, text, rule)


def cases(seed):
    """Name, public key, message, signature and rule."""
    for s in SETS:
        for rule in RULES:
            rng = Random(f"{seed} marker of set {s.number}, rule {rule}")
            key, text, signature = good(rng, s, rule)
            other = good(rng, SETS[(s.number + 1) % 5], rule)
            of = f"{s.number} under {rule}"
            yield f"{of} good", key, text, signature, rule
            for another in (0, material.other_rule(rule), 3, 255):
                yield f"{of} good, given {another}", key, text, signature, another
            yield f"{of} another message", key, text + b"x", signature, rule
            yield f"{of} last coefficient", key, text, put(signature, len(signature) - 1, signature[-1] ^ 1), rule
            yield f"{of} another set's signature", key, text, other[2], rule
            yield f"{of} another set's key", other[0], text, signature, rule
            yield f"{of} no set", put(key, 0, 5), text, signature, rule
            yield f"{of} exponent 0", put(put(key, 1, 0), 2, 0), text, signature, rule
            yield f"{of} evaluation above q", put(key, len(key) - 3, 255), text, signature, rule
            yield f"{of} index above N", key, text, put(signature, 1, 0x7F), rule
            yield f"{of} cut signature", key, text, signature[:-1], rule
            yield f"{of} cut signature, given 3", key, text, signature[:-1], 3
            yield f"{of} empty key", b"", text, signature, rule
            yield f"{of} empty signature", key, text, b"", rule
            yield f"{of} long message", key, bytes(65536), signature, rule


def wanted(key, text, signature, rule):
    """Row, exit status and refusal number."""
    answer = check(key, text, signature, rule)
    return {256: ("yes\n", 0, None), 0: ("no\n", 1, None)}.get(answer, ("", 2, answer))


def marked(program, *arguments, out=subprocess.PIPE):
    return subprocess.run([program, *map(str, arguments)], text=True, stdout=out, stderr=subprocess.PIPE)


def as_wanted(done, row, status, number, texts):
    said = f"marker: refused with {number}: {texts[number]}\n" if status == 2 else ""
    return (done.stdout, done.returncode, done.stderr) == (row, status, said)


def cases_agree(seed, programs, folder, seen):
    names, texts = [folder / name for name in FILES], headers.refusal_texts()
    for name, *contents, rule in cases(seed):
        for path, content in zip(names, contents):
            path.write_bytes(content)
        row, status, number = wanted(*contents, rule)
        seen.add(number if status == 2 else row)
        for program in programs:
            done = marked(program, *names, rule)
            if not as_wanted(done, row, status, number, texts):
                print(f"marker: DIFFERENCE in '{name}': row {done.stdout!r}, status {done.returncode}, {done.stderr!r}; "
                      f"reference {row!r}, {status}, {number}; again: tests/run --seed {seed}")
                return False
    return True


def example_agrees(program):
    """The files of examples/marker, each signature under both rules; then an unreadable file, a full disk, and a rule too few and one too many."""
    key, message, one, two = (REPOSITORY / "examples/marker" / name for name in (*FILES, "signature-rule-2"))
    ends = [marked(program, key, message, signature, rule).returncode for signature in (one, two) for rule in RULES]
    ends.append(marked(program, key, message, "no such file", 1).returncode)
    with open("/dev/full", "w") as full:
        ends.append(marked(program, key, message, one, 1, out=full).returncode)
    ends += [marked(program, key, message, one, *rules).returncode for rules in ((), (1, 1))]
    if ends != [0, 1, 1, 0, 2, 2, 2, 2]:
        print(f"marker: DIFFERENCE: exit statuses {ends} for the examples, an unreadable file, a full disk, no rule and two, not 0, 1, 1, 0, 2, 2, 2, 2")
        return False
    return numbers_are_asked_for(program, key, message, one)


def numbers_are_asked_for(program, *files):
    for text in NOT_A_NUMBER:
        done = marked(program, *files, text)
        if (done.stdout, done.returncode, done.stderr.count("\n")) != ("", 2, 1) or f"'{text}' is no rule: give 1 " not in done.stderr:
            print(f"marker: DIFFERENCE: for the rule {text!r} it says {done.stdout!r}, {done.stderr!r}, status {done.returncode}, not what to give")
            return False
    return True


def run(seed):
    """True when all agree."""
    seen = set()
    with TemporaryDirectory() as folder:
        folder = Path(folder)
        programs = [c_program("examples/marker.c", folder / "plain"), c_program("examples/marker.c", folder / "sanitized", SANITIZERS)]
        if not cases_agree(seed, programs, folder, seen) or not all(map(example_agrees, programs)):
            return False
    complete = seen == {"yes\n", "no\n", 1, 2, 18, 4, 7, 12}
    print(f"marker: {len(list(cases(seed)))} cases agree with the reference, and {len(NOT_A_NUMBER)} rules are told to be no number, plain and under "
          f"{SANITIZERS[11:]}{'' if complete else ': NOT ALL ANSWERS SEEN'}")
    return complete
