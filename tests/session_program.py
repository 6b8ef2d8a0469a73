"""bin/session as its users call it: what each command writes and where, how mistakes are told, and that each picture shows its signature."""

import ast
import os
import pty
import re
import signal
import subprocess
import time
from pathlib import Path
from tempfile import TemporaryDirectory
from xml.etree import ElementTree

from building import REPOSITORY
from reference.encodings import read_signature
from reference.parameters import SETS
from reference.session import play_to_the_end

SVG = "{http://www.w3.org/2000/svg}"
SESSIONS = REPOSITORY / "examples/sessions"
TEXT = 'set 0\npoints 1 4\nkey 0 1 -1 -1 0\nmessage "Unit four, exercise 17"\nmask 1 -1 1 -6 2\nmask -1 -1 1 2 2\nsign\ncheck last\nend\n'


def called(*arguments, given=b"", folder=None, out=subprocess.PIPE, **environment):
    done = subprocess.run([REPOSITORY / "bin/session", *arguments], input=given, cwd=folder, stdout=out, stderr=subprocess.PIPE, env={**os.environ, **environment})
    return done.returncode, done.stdout, done.stderr.decode()


# ── Files and mistakes ──────────────────────────────────────────────────────────────────────────

def faults_of_files(folder):
    """A text packed to a file and to standard output, from a file and from standard input; shown; and its text packed again."""
    (folder / "a.txt").write_text("\ufeff" + TEXT.replace("\n", "\r\n"), encoding="utf-8")
    (folder / "numbers").mkdir()
    (folder / "numbers/key.txt").write_text("0, 1,-1\n-1 0\n")
    (folder / "numbers/b.txt").write_text(TEXT.replace("0 1 -1 -1 0", "@key.txt"))
    packed = called("pack", "a.txt", "-o", "a.session", folder=folder)
    file = (folder / "a.session").read_bytes()
    if packed != (0, b"", "") or play_to_the_end(file).split(b"\n")[6:8] != [b"7 06 0 1 0000028003FFFF0000000100030000", b"8 07 0 1"]:
        yield f"pack gives {packed} and {file.hex()}"
    for how in (called("pack", "a.txt", folder=folder), called("pack", "-", given=TEXT.encode()), called("pack", "numbers/b.txt", folder=folder)):
        if how != (0, file, ""):
            yield f"a text, packed otherwise, gives {how}"
    shown, text, piped = called("show", "a.session", folder=folder), called("show", "--text", "a.session", folder=folder), called("show", "-", given=file)
    if shown[0] or shown != piped or b"\n104  sign\n" not in shown[1]:
        yield f"show gives {shown}, from standard input {piped}"
    if called("pack", "-", given=text[1]) != (0, file, ""):
        yield f"the text of show packs to other bytes: {text}"
    accents = 'set 0\nmessage "é√𝄞 \\"#\\\\"\nend\n'.encode()
    if called("show", "--text", "-", given=called("pack", "-", given=accents)[1], PYTHONIOENCODING="ascii") != (0, accents, ""):
        yield "a message with accents does not come back as it was written"
    if called("pack", REPOSITORY / "examples/texts/set-1.txt") != (0, (SESSIONS / "set-1.session").read_bytes(), ""):
        yield "examples/texts/set-1.txt does not pack to set-1.session: run tests/make_examples.py"


def on_terminal(*arguments):
    """The same with a terminal as standard output."""
    terminal, other = pty.openpty()
    done = called(*arguments, out=other)
    os.close(other)
    os.close(terminal)
    return done


def faults_of_mistakes(folder):
    """Status 2, one line that says what to do, and no file."""
    (folder / "wrong.txt").write_text("set 0\npoints 1\nsign 1\n")
    (folder / "right.txt").write_text("end\n")
    (folder / "bytes").write_bytes(b"set 0\nmessage \"Gr\xfc\xdfe\"\n")
    (folder / "none.session").write_bytes(b"PSG1\0")
    right = folder / "right.txt"
    cases = (
        (("pack", folder / "wrong.txt", "-o", folder / "out"), [f"{folder}/wrong.txt, line 2: found 1 number", f"{folder}/wrong.txt, line 3: found '1'"]),
        (("pack", folder / "no.txt"), ["cannot read", "give the path of a file"]),
        (("pack", folder / "bytes"), ["line 2: found bytes that are not UTF-8", "saved as UTF-8"]),
        (("pack", folder / "none.session"), ["is a session file: bin/session show shows it"]),
        (("pack", right, "-o", right), ["is the text itself: give another place"]),
        (("pack", folder), ["cannot read"]),
        (("pack", right, "-o", folder / "no/such"), ["cannot write", "give another place with -o"]),
        (("show", folder / "no.session"), ["cannot read"]),
        (("plot", folder / "none.session", "-o", folder), ["has no signature", "bin/session show tells why"]),
        (("plot", SESSIONS / "set-0.session", "-o", right), ["cannot make the folder", "give another place with -o"]),
    )
    for arguments, words in cases:
        status, out, told = called(*arguments)
        lines = told.splitlines()
        if status != 2 or out or not all(line.startswith("bin/session: ") for line in lines) or not all(word in told for word in words):
            yield f"bin/session {' '.join(map(str, arguments))} ends with {status} and tells {told!r}, not {words}"
    if on_terminal("pack", right)[::2] != (2, "bin/session: a session file is bytes, not for a terminal: give its name with -o, or redirect standard output\n"):
        yield "pack writes bytes to a terminal"
    if right.read_text() != "end\n" or (folder / "out").exists() or list(folder.glob("*.svg")):
        yield "a mistake leaves a file"
    long = "no-tag\n" + 65537 * "raw 00\n"
    if called("pack", "-", given=long.encode()) != (0, bytes(65537), "bin/session: this file has 65537 bytes, and the player takes 65536: it refuses it with 1\n"):
        yield "pack does not tell of a file that is too long"


def faults_of_streams():
    """A full disk, closed streams and an interrupt end it with a line, or none, and no traceback."""
    session, text = SESSIONS / "set-0.session", REPOSITORY / "examples/texts/first.txt"
    for line, status, told in ((f"show {session} > /dev/full", 2, "cannot write: No space left on device: see to standard output"),
                               (f"pack {text} > /dev/full", 2, "cannot write: No space left on device: see to standard output"),
                               (f"show {session} >&-", 2, "cannot write: standard output is closed"),
                               ("show - <&-", 2, "cannot read standard input: it is closed"),
                               (f"show {SESSIONS / 'set-4.session'} --full | head -c 1 | wc -c", 0, None)):
        done = subprocess.run(f"{REPOSITORY}/bin/session {line}", shell=True, stdout=subprocess.PIPE, stderr=subprocess.PIPE, text=True)
        if done.returncode != status or done.stderr != (f"bin/session: {told}\n" if told else ""):
            yield f"bin/session {line} ends with {done.returncode} and tells {done.stderr!r}"
    waiting = subprocess.Popen([REPOSITORY / "bin/session", "show", "-"], stdin=subprocess.PIPE, stderr=subprocess.PIPE, text=True,
                               preexec_fn=lambda: signal.signal(signal.SIGINT, signal.default_int_handler))
    time.sleep(1)
    waiting.send_signal(signal.SIGINT)
    told = waiting.communicate()[1]
    if waiting.returncode not in (130, -signal.SIGINT) or told:
        yield f"an interrupt of bin/session show - ends with {waiting.returncode} and tells {told!r}"


# ── Pictures ────────────────────────────────────────────────────────────────────────────────────

def picture_faults(path, s, signature):
    """The title, the axes and the range stand there; as many dots and crosses as coefficients; and the challenge's indices with their signs."""
    root = ElementTree.parse(path).getroot()
    words = [element.text for element in root.iter(f"{SVG}text")]
    entries, z = read_signature(s, signature)
    bound = s.k - s.b
    wanted = {"index i", "coefficient of z", "challenge c", f"k - b = {bound}", f"-(k - b) = {-bound}"}
    outside = sum(abs(value) > bound for value in z)
    crosses = [path for path in root.iter(f"{SVG}path") if re.fullmatch(r"M\S+ \S+l\d+ \d+m0 -\d+l-\d+ \d+", path.get("d"))]
    shapes = len(crosses) + len(list(root.iter(f"{SVG}circle")))
    challenge = " ".join(("-" if entry & 0x8000 else "+") + str(entry & 0x7FFF) for entry in entries)
    if root.get("width") != "800" or not wanted <= set(words) or f"challenge: {challenge}" not in " ".join(words):
        yield f"{path.name} lacks {wanted - set(words)} or its challenge {challenge}"
    if shapes != s.N + 1 + (outside > 0) - (outside == s.N):  # those of the legend, too
        yield f"{path.name} has {shapes} dots and crosses for {s.N} coefficients"
    if (f"all {s.N} coefficients in range" in words) != (outside == 0):
        yield f"{path.name} does not tell that {outside} coefficients are out of range"


def faults_of_pictures(folder):
    """Of each example's signatures, of one with coefficients out of range and of one with a wrong challenge."""
    damaged = bytearray((SESSIONS / "set-1.session").read_bytes())
    damaged[-3:-1], damaged[-5:-3] = b"\x7f\xff", b"\x80\x00"
    (folder / "range.session").write_bytes(damaged)
    file = bytearray((SESSIONS / "set-0.session").read_bytes())
    file[-14:-12] = b"\x00\x01"
    (folder / "entries.session").write_bytes(file)
    for path in [*sorted(SESSIONS.glob("*.session")), folder / "range.session", folder / "entries.session"]:
        rows = [row.split(b" ") for row in play_to_the_end(path.read_bytes()).splitlines()]
        made = [bytes.fromhex(row[4].decode()) for row in rows if row[1:3] == [b"06", b"0"]]
        status, out, told = called("plot", path, "-o", folder)
        names = [Path(line) for line in out.decode().splitlines()]
        if made and (status, told) != (0, "") or len(names) < len(made):
            yield f"plot of {path.name} ends with {status}, {out!r} and {told!r}"
        for row in rows:
            picture = folder / f"{path.stem}-row-{row[0].decode()}.svg"
            if row[1:3] == [b"06", b"0"]:
                signature = bytes.fromhex(row[4].decode())
                yield from picture_faults(picture, SETS[signature[0]], signature[1:])
    last = damaged[-1 - 2 * 19 - 2 * 433:-1]
    yield from picture_faults(folder / "range-row-8.svg", SETS[1], bytes(last))
    plotted = called("plot", SESSIONS / "set-0.session", "-o", folder / "made/anew")
    if plotted[0] or not (folder / "made/anew/set-0-row-7.svg").exists():
        yield f"plot into a folder that is not there gives {plotted}"
    for name, words in (("set-0-row-7.svg", "signed in row 7 under rule 1, 1 mask passed over; checked in row 8 under rule 1: yes"),
                        ("rules-row-9.svg", "signed in row 9 under rule 2, 0 masks passed over; checked in row 10 under rule 2: yes; "
                                            "checked in row 12 under rule 1: no; checked in row 21 under rule 2: yes"),
                        ("entries-row-8.svg", "refused with 12 in row 8")):
        if words not in (folder / name).read_text():
            yield f"{name} does not tell '{words}'"


# ── All ─────────────────────────────────────────────────────────────────────────────────────────

def faults_of_syntax():
    """Python 3.9 is promised."""
    for path in (REPOSITORY / "bin/session", *(REPOSITORY / "tools/session_files").glob("*.py")):
        try:
            ast.parse(path.read_text(), feature_version=(3, 9))
        except SyntaxError as error:
            yield f"{path.name} is no Python 3.9: {error}"


def run():
    """True when all is as it should be."""
    with TemporaryDirectory() as folder:
        folder = Path(folder)
        faults = [*faults_of_syntax(), *faults_of_files(folder), *faults_of_mistakes(folder), *faults_of_streams(), *faults_of_pictures(folder)]
        pictures = len(list(folder.glob("*.svg")))
    for fault in faults:
        print(f"bin/session: DIFFERENCE: {fault}")
    print(f"bin/session: pack, show and plot on files, standard input and a terminal, and {pictures} pictures")
    return not faults
