"""README's commands, run in its order in a folder that has the repository's files and what they write: each stands in README as it is run, and so does
what it prints."""

import subprocess
from pathlib import Path
from tempfile import TemporaryDirectory

from building import REPOSITORY

README = REPOSITORY / "README.md"
BUILDING = "bin/build passign_c"  # tests/install.py runs it

COMMANDS = (
    "bin/play examples/sessions/document.session",
    "bin/session pack examples/texts/first.txt -o first.session",
    "bin/session show first.session",
    "bin/session plot first.session",
    "cc -Iinclude examples/marker.c target/staticlib/libpassign_c.a -o target/marker",
    "target/marker examples/marker/public_key examples/marker/message examples/marker/signature 1",
    "cc -Iinclude examples/sign.c target/staticlib/libpassign_c.a -o target/sign",
    "target/sign examples/sign/secret_key examples/sign/points.txt examples/sign/masks.txt examples/sign/message signature 1",
    "target/marker examples/marker/public_key examples/sign/message signature 1",
)


def block(text):
    """A text as README has it."""
    return "".join(f"    {line}".rstrip() + "\n" for line in text.splitlines())


def faults_of(command, folder, readme):
    done = subprocess.run(command, shell=True, cwd=folder, stdin=subprocess.DEVNULL, stdout=subprocess.PIPE, stderr=subprocess.STDOUT, text=True)
    if block(command) not in readme:
        yield f"README does not have '{command}'"
    if done.returncode != 0:
        yield f"'{command}' ends with {done.returncode}: {done.stdout}"
    elif block(done.stdout) not in readme:
        yield f"README does not show what '{command}' prints: {done.stdout}"


def faults_in(folder, readme):
    for path in REPOSITORY.iterdir():
        (folder / path.name).symlink_to(path)
    if block(BUILDING) not in readme or block((REPOSITORY / "examples/texts/first.txt").read_text()) not in readme:
        yield f"README does not have '{BUILDING}', or examples/texts/first.txt as it is"
    for command in COMMANDS:
        yield from faults_of(command, folder, readme)
    for picture in folder.glob("*.svg"):
        kept = REPOSITORY / "docs" / picture.name
        if f"(docs/{picture.name})" not in readme or not kept.exists() or kept.read_text() != picture.read_text():
            yield f"docs/{picture.name}, which README shows, is not what bin/session plot draws"
    # the marker on a signature that lacks its last byte
    cut = (REPOSITORY / "examples/marker/signature").read_bytes()[:-1]
    (folder / "cut").write_bytes(cut)
    refused = subprocess.run("target/marker examples/marker/public_key examples/marker/message cut 1", shell=True, cwd=folder, stderr=subprocess.PIPE, text=True)
    if refused.returncode != 2 or block(refused.stderr) not in readme:
        yield f"README does not show what the marker tells of a cut signature: {refused.stderr}"


def mistakes_shown(folder, readme):
    """The mistakes that README shows, of the text that it describes."""
    (folder / "exercise.txt").write_text("set 0\npoints 1 4\nkey 0 1 2\nmas 1 1 1 1 1\n")
    told = subprocess.run(["bin/session", "pack", "exercise.txt"], cwd=folder, stdout=subprocess.DEVNULL, stderr=subprocess.PIPE, text=True).stderr
    if block(told) not in readme.replace("\n      bin/session: ", "\n    bin/session: "):
        yield f"README does not show what pack tells of a text with two mistakes: {told}"


def run():
    """True when all is as README says."""
    readme = README.read_text()
    with TemporaryDirectory() as folder:
        faults = [*faults_in(Path(folder), readme), *mistakes_shown(Path(folder), readme)]
    for fault in faults:
        print(f"README: DIFFERENCE: {fault}")
    print(f"README: {len(COMMANDS)} commands and what they print")
    return not faults
