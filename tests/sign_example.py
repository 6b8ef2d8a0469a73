"""examples/sign.c, built plain and under the address and undefined-behaviour sanitizers: on the files of examples/sign, on cases of each set and rule, on calls
that are refused by each number, and on files that cannot be read, understood or written. What it prints, its exit status and the signature file must be what
the reference says, and nothing is written where nothing is signed."""

import resource
import subprocess
from pathlib import Path
from random import Random
from tempfile import TemporaryDirectory

import headers
import make_examples
import material
from building import REPOSITORY, SANITIZERS, c_program
from damages import put
from reference import encodings, library
from reference.challenge import RULES
from reference.parameters import SETS

EXAMPLE = REPOSITORY / "examples/sign"
FILES = ("secret_key", "points.txt", "masks.txt", "message")
MOST_POINTS, MOST_MASK_NUMBERS = max(s.t for s in SETS), library.MOST_MASKS * max(s.N for s in SETS)
REFUSALS = {1, 2, 18, 4, 5, 6, 9}
OLD = b"an old signature"


# ── Cases ───────────────────────────────────────────────────────────────────────────────────────

def text_of(rng, numbers):
    """Numbers apart by any white space and commas."""
    between = (" ", "\n", ",", ", ", "\t", "\r\n", " ,\n", ",,")
    return (rng.choice(("", " \n")) + "".join(f"{number}{rng.choice(between)}" for number in numbers)).encode()


def good(rng, s, rule, failing):
    """Key, points, masks, of which so many are passed over, and a message."""
    f, at, text = material.dense_key(rng, s), material.points(rng, s), rng.randbytes(rng.choice((0, 1, 64, 5000, 65535)))
    masks = [material.failing_mask(rng, s, f, at, text, rule)] * failing + [material.passing_mask(rng, s)] * rng.randint(1, 8 - failing)
    return encodings.write_secret_key(s, f), at, [value for y in masks for value in y], text


def signed_cases(seed):
    """Name, secret key, points, masks, message and rule."""
    for s in SETS:
        for rule in RULES:
            for failing in (0, 1, 7):
                rng = Random(f"{seed} signer of set {s.number}, rule {rule}, {failing} passed over")
                yield f"set {s.number} under {rule}, {failing} passed over", *good(rng, s, rule, failing), rule


def refused_cases(seed):
    """The same, with a mistake each; the reference says which number it gives."""
    for s in SETS:
        rng = Random(f"{seed} signer of set {s.number}, refused")
        rule = material.any_rule(rng)
        key, at, masks, text = good(rng, s, rule, 0)
        failing = material.failing_mask(rng, s, encodings.read_key(key[1:]), at, text, rule)
        mistakes = {
            "empty key": (b"", at, masks, text, rule), "short key": (key[:-1], at, masks, text, rule), "long key": (key + b"\0", at, masks, text, rule),
            "set 5": (put(key, 0, 5), at, masks, text, rule), "set 255": (put(key, 0, 255), at, masks, text, rule),
            "key of another set": (put(key, 0, (s.number + 1) % 5), at, masks, text, rule), "key byte 02": (put(key, s.N, 2), at, masks, text, rule),
            "no point": (key, [], masks, text, rule), "short points": (key, at[:-1], masks, text, rule),
            "exponent 0": (key, [0] + at[1:], masks, text, rule), "exponent N": (key, at[:-1] + [s.N], masks, text, rule),
            "exponents not sorted": (key, at[::-1], masks, text, rule), "exponent 65535": (key, at[:-1] + [65535], masks, text, rule),
            "no mask": (key, at, [], text, rule), "short mask": (key, at, masks[:-1], text, rule), "mask -k-1": (key, at, put(masks, 0, -s.k - 1), text, rule),
            "mask 32767": (key, at, put(masks, 0, 32767), text, rule), "none passes": (key, at, 3 * failing, text, rule),
            "long message": (key, at, masks, bytes(65536), rule), **{f"rule {number}": (key, at, masks, text, number) for number in (0, 3, 255)}}
        if 9 * s.N <= MOST_MASK_NUMBERS:
            mistakes["nine masks"] = key, at, 9 * failing, text, rule
        for name, case in mistakes.items():
            yield f"set {s.number}, {name}", *case


def wanted(key, at, masks, text, rule, name, texts):
    """What is printed, the exit status, what is told, the signature file and the answer, for a file of this name."""
    set_number = key[0] if key and key[0] < len(SETS) else 0
    s = SETS[set_number]
    answer = library.public_key(key, at, bytearray(encodings.public_key_length(s)))
    out = bytearray(encodings.signature_length(s))
    answer = answer or library.sign(key, at, masks, text, out, rule)
    if answer < library.SIGNED:
        return "", 1, f"sign: refused with {answer}: {texts[answer]}\n", OLD, answer
    passed_over = answer - library.SIGNED
    said = (f"signed under rule {rule} in set {s.number} with mask {passed_over + 1} of {len(masks) // s.N}: {passed_over} passed over\n"
            f"wrote {len(out)} bytes to {name}\ncheck: yes\n")
    return said, 0, "", bytes(out), answer


# ── Runs ────────────────────────────────────────────────────────────────────────────────────────

def signed(program, *arguments, out=subprocess.PIPE, **more):
    return subprocess.run([program, *map(str, arguments)], text=True, stdout=out, stderr=subprocess.PIPE, **more)


def write_case(rng, folder, key, at, masks, text):
    paths = [folder / name for name in FILES]
    for path, content in zip(paths, (key, text_of(rng, at), text_of(rng, masks), text)):
        path.write_bytes(content)
    return paths


def cases_agree(seed, programs, folder, seen):
    rng, texts, to = Random(f"{seed} texts"), headers.refusal_texts(), folder / "signature"
    for name, *case, rule in [*signed_cases(seed), *refused_cases(seed)]:
        paths = write_case(rng, folder, *case)
        said, status, told, content, answer = wanted(*case, rule, to, texts)
        seen.append(answer)
        for program in programs:
            to.write_bytes(OLD)
            done = signed(program, *paths, to, rule)
            if (done.stdout, done.returncode, done.stderr, to.read_bytes()) != (said, status, told, content):
                print(f"signer: DIFFERENCE in '{name}': printed {done.stdout!r}, status {done.returncode}, {done.stderr!r}; reference {said!r}, {status}, {told!r}; "
                      f"the signature file {'agrees' if to.read_bytes() == content else 'differs'}; again: tests/run --seed {seed}")
                return False
    return True


def example_agrees(program, folder):
    """The files of examples/sign, which make_examples writes, as README shows them; the signature is not there before."""
    for name, content in make_examples.for_signing(SETS[1]):
        if (EXAMPLE / name).read_bytes() != content:
            print(f"signer: DIFFERENCE: examples/sign/{name} is not what tests/make_examples.py writes")
            return False
    to = folder / "signature"
    to.unlink()
    done = signed(program, *(EXAMPLE / name for name in FILES), to, 1)
    said = f"signed under rule 1 in set 1 with mask 2 of 3: 1 passed over\nwrote 905 bytes to {to}\ncheck: yes\n"
    if (done.stdout, done.returncode, done.stderr) != (said, 0, "") or len(to.read_bytes()) != 905:
        print(f"signer: DIFFERENCE: for examples/sign it prints {done.stdout!r}, {done.stderr!r}, status {done.returncode}")
        return False
    return True


# ── What it must tell ───────────────────────────────────────────────────────────────────────────

NO_NUMBERS = (b"x", b"1.5", b"0x10", b"--1", b"1-", b"-", b"+", b"1;2", b"1e3", b"1\0", b"\xd9\xa3", b"\xef\xbb\xbf1", 20 * b"0", 40 * b"9", b"9223372036854775808")
OUT_OF_RANGE = {"points.txt": (b"65536", b"-1", b"99999999999"), "masks.txt": (b"32768", b"-32769", b"-99999999999")}
ENDS = {"points.txt": (MOST_POINTS, "0 to 65535"), "masks.txt": (MOST_MASK_NUMBERS, "-32768 to 32767")}


def shown(word):
    """As it tells a word: the first 31 bytes, with a question mark for what cannot be printed."""
    return "".join(chr(byte) if 32 < byte < 127 else "?" for byte in word[:31])


def wrong_texts():
    """The file, its bytes, the word that is wrong and its number."""
    for name, (most, _) in ENDS.items():
        for word in NO_NUMBERS + OUT_OF_RANGE[name]:
            yield name, b"1, 2\n" + word + b" 4", word, 3
        yield name, most * b"1 " + b"7", b"7", most + 1


def is_told(program, paths, to, told, **more):
    """Whether a run with these files and this signature file tells just this, with status 2, and leaves the signature file as it was, or none."""
    before = to.read_bytes() if to.is_file() else None
    done = signed(program, *paths, to, 1, **more)
    after = to.read_bytes() if to.is_file() else None
    if (done.stdout, done.returncode, done.stderr, after) == ("", 2, told, before):
        return True
    print(f"signer: DIFFERENCE: printed {done.stdout!r}, status {done.returncode}, {done.stderr!r}, not {told!r}; the signature file was "
          f"{before and before[:20]!r}, is {after and after[:20]!r}")
    return False


def texts_are_told(program, folder, to):
    for name, content, word, number in wrong_texts():
        wrong = folder / f"wrong-{name}"
        wrong.write_bytes(content)
        most, ends = ENDS[name]
        told = f"sign: {wrong}: found '{shown(word)}' as number {number}: expected at most {most} whole numbers from {ends}, apart by white space or commas\n"
        if not is_told(program, [wrong if each == name else EXAMPLE / each for each in FILES], to, told):
            return False
    return True


def unreadable_is_told(program, folder, to):
    for unreadable in (folder / "no such file", folder):
        for name in FILES:
            told = f"sign: cannot read {unreadable}: give the names of a secret key, points, masks and a message file\n"
            if not is_told(program, [unreadable if each == name else EXAMPLE / each for each in FILES], to, told):
                return False
    return True


def half_of_a_signature():
    resource.setrlimit(resource.RLIMIT_FSIZE, (400, 400))  # Python has SIGXFSZ ignored, and restore_signals=False leaves it so


def unwritten_is_told(program, folder):
    """No such folder, a folder, a file that can hold no whole signature, which must not stay, and a full disk, a device, whose name must: here a link to it."""
    paths, full = [EXAMPLE / name for name in FILES], folder / "full"
    if not full.is_symlink():
        full.symlink_to("/dev/full")
    for to, more in ((folder / "none/signature", {}), (folder, {}), (full, {}),
                     (folder / "half", {"preexec_fn": half_of_a_signature, "restore_signals": False})):
        if not is_told(program, paths, to, f"sign: cannot write {to}: see to its folder and the room on the disk, and sign again\n", **more):
            return False
    if not full.is_symlink():
        print("signer: DIFFERENCE: it removes the name of a device")
    return full.is_symlink()


def others_are_told(program, folder, to):
    """A full disk for what it prints, what is no rule, and arguments too few and too many."""
    paths = [EXAMPLE / name for name in FILES]
    with open("/dev/full", "w") as full:
        runs = [signed(program, *paths, to, 1, out=full)]
    runs += [signed(program, *paths, to, *rules) for rules in (("x",), ("256",), ("",), (), (1, 1))]
    if all(done.returncode == 2 and done.stderr.count("\n") == 1 and not done.stdout for done in runs):
        return True
    print(f"signer: DIFFERENCE: for a full disk, no rule or a wrong number of arguments {[(done.returncode, done.stderr) for done in runs]}")
    return False


def mistakes_are_told(program, folder):
    to = folder / "signature"
    return (texts_are_told(program, folder, to) and unreadable_is_told(program, folder, to) and unwritten_is_told(program, folder)
            and others_are_told(program, folder, to))


def run(seed):
    """True when all agree."""
    seen = []
    with TemporaryDirectory() as folder:
        folder = Path(folder)
        programs = [c_program("examples/sign.c", folder / "plain"), c_program("examples/sign.c", folder / "sanitized", SANITIZERS)]
        agree = cases_agree(seed, programs, folder, seen)
        if not agree or not all(example_agrees(program, folder) and mistakes_are_told(program, folder) for program in programs):
            return False
    complete = {answer for answer in seen if answer < library.SIGNED} == REFUSALS and max(seen) == library.SIGNED + 7
    print(f"signer: {len(seen)} cases agree with the reference, {len(list(wrong_texts()))} wrong texts and all that cannot be read or written are told, plain and under "
          f"{SANITIZERS[11:]}{'' if complete else ': NOT ALL ANSWERS SEEN'}, seed {seed}")
    return complete
