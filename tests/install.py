"""bin/install into a folder of its own: what it writes there, that README's line builds a marker with it, and that the player there plays."""

import os
import re
import subprocess
from pathlib import Path
from tempfile import TemporaryDirectory

from building import REPOSITORY

FILES = {"lib/libpassign.a": 0o644, "include/passign.h": 0o644, "lib/pkgconfig/passign.pc": 0o644, "bin/passign-play": 0o755,
         "libexec/passign-play": 0o755}
EXAMPLES = REPOSITORY / "examples"


def installed(*arguments, folder=REPOSITORY):
    done = subprocess.run([REPOSITORY / "bin/install", *arguments], cwd=folder, stdin=subprocess.DEVNULL, stdout=subprocess.PIPE, stderr=subprocess.PIPE, text=True)
    return done.returncode, done.stdout, done.stderr


def line_of_readme():
    """The line that compiles a marker against what is installed."""
    return re.search(r"^    (cc marker\.c \$\(pkg-config .*)$", (REPOSITORY / "README.md").read_text(), re.MULTILINE).group(1)


def faults_of_files(prefix):
    found = {str(path.relative_to(prefix)): path.stat().st_mode & 0o777 for path in prefix.rglob("*") if path.is_file()}
    if found != FILES:
        yield f"bin/install leaves {found}"
    if (prefix / "include/passign.h").read_bytes() != (REPOSITORY / "include/passign.h").read_bytes():
        yield "the header that bin/install leaves is not include/passign.h"


def faults_of_marker(prefix, folder):
    """README's line, with nothing of the repository but the marker's source."""
    (folder / "marker.c").write_bytes((EXAMPLES / "marker.c").read_bytes())
    environment = {**os.environ, "PKG_CONFIG_PATH": f"{prefix}/lib/pkgconfig"}
    compiled = subprocess.run(line_of_readme(), shell=True, cwd=folder, env=environment, stdout=subprocess.PIPE, stderr=subprocess.STDOUT, text=True)
    program = folder / (re.search(r"-o (\S+)", line_of_readme()) or ["", "a.out"])[1]
    if compiled.returncode != 0 or compiled.stdout or not program.exists():
        yield f"'{line_of_readme()}' gives {compiled.returncode} and {compiled.stdout!r} (it needs cc and pkg-config)"
        return
    files = [EXAMPLES / "marker" / name for name in ("public_key", "message", "signature")]
    for rule, row in ((1, "yes\n"), (2, "no\n")):
        marked = subprocess.run([program, *files, str(rule)], stdout=subprocess.PIPE, text=True).stdout
        if marked != row:
            yield f"the marker so built prints {marked!r} under rule {rule}"


def faults_of_player(prefix):
    """Called with a file and with standard input; wrongly, from a PREFIX that was moved; bin/play, also through a link, is the same."""
    for session in sorted((EXAMPLES / "sessions").glob("*.session")):
        rows = session.with_suffix(".rows").read_bytes()
        for call in (f"'{session}'", f"< '{session}'"):
            printed = subprocess.run(f"{prefix}/bin/passign-play {call}", shell=True, stdin=subprocess.DEVNULL, stdout=subprocess.PIPE).stdout
            if printed != rows:
                yield f"passign-play {call} gives other rows"
    (prefix / "link").symlink_to(REPOSITORY / "bin/play")
    moved, session = prefix.rename(prefix.with_name("moved")), EXAMPLES / "sessions/set-0.session"
    for player in (f"{moved}/bin/passign-play", f"{moved}/link"):
        for call, status, words in (("--help", 0, ""), (f"{session} {session}", 2, "usage"), ("-x", 2, "usage"), ("''", 2, "usage"),
                                    ("none", 2, "there is no such file"), ("/", 2, "it is a folder"), ("< /", 2, "it is a folder"), ("<&-", 2, "it is closed"),
                                    (f"{session} > /dev/full", 2, "cannot write the rows"), (f"{session} >&-", 2, "cannot write the rows"),
                                    (f"{session} | head -c 1 > /dev/null", 0, ""), (f"{session} > /dev/null", 0, "")):
            done = subprocess.run(f"{player} {call}", shell=True, stdout=subprocess.PIPE, stderr=subprocess.PIPE, text=True)
            if done.returncode != status or words not in done.stderr or (done.stderr != "") != (status != 0):
                yield f"{player} {call} ends with {done.returncode} and tells {done.stderr!r}"


def faults_of_use(folder):
    """Wrong calls say what to give, and write nothing."""
    (folder / "file").write_text("")
    for arguments, words in (((), "usage"), (("a", "b"), "usage"), (("",), "usage"), (("-x",), "usage"), (("a b",), "white space"),
                             (("a#b",), "white space"), ((folder / "file/below",), "cannot write below")):
        status, out, told = installed(*arguments, folder=folder)
        if status != 2 or out or words not in told or told.count("\n") != 1:
            yield f"bin/install {arguments} ends with {status}, {out!r} and {told!r}"


def run():
    """True when all is as it should be."""
    with TemporaryDirectory() as folder:
        folder = Path(folder)
        prefix = folder / "prefix"
        faults = []
        for given, where in (("prefix", folder), (prefix, REPOSITORY)):  # a second time over the first, too
            done = installed(given, folder=where)
            if done[0] != 0 or str(prefix) not in done[1]:
                faults.append(f"bin/install {given} gives {done}")
        faults = faults or [*faults_of_files(prefix), *faults_of_marker(prefix, folder), *faults_of_player(prefix), *faults_of_use(folder)]
    for fault in faults:
        print(f"install: DIFFERENCE: {fault}")
    print(f"install: {len(FILES)} files below a PREFIX, a marker by README's line, and the player there")
    return not faults
