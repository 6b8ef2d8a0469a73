"""The command line of bin/session."""

import argparse
import os
import sys
from pathlib import Path

from . import plot
from .commands import COMMANDS, TAG
from .mistakes import Mistake
from .pack import NO_TAG, RAW, lines_of, pack
from .played import played_pieces
from .show import as_text, listing

MOST_FILE_BYTES = 65536

WORDS = "\n".join([f"  {command.word:<12}{command.operand.example}".rstrip() for command in COMMANDS]
                  + [f"  {RAW:<12}bytes in hex, for what the format does not allow", f"  {NO_TAG:<12}as the first word: the file does not open with the tag"])

DESCRIPTION = """\
Writes session files from text, shows them, and draws their signatures.

  bin/session pack TEXT [-o FILE]     the session file of a text: a line for each command
  bin/session show FILE               each command, its row, and what a refusal means
  bin/session plot FILE [-o FOLDER]   an SVG of each signature"""

EPILOG = f"""\
A text has a line for each command, a word and its operand; # starts a comment. Numbers stand apart by
white space or commas, and @NAME takes those of a file. README's "A session file" says what each does;
examples/texts/first.txt is a whole text.

{WORDS}

TEXT or FILE may be - for standard input. Exit status: 0, or 2 for a mistake, which is told."""


def read_bytes(name):
    try:
        if name == "-" and sys.stdin is None:
            raise Mistake("cannot read standard input: it is closed")
        return sys.stdin.buffer.read() if name == "-" else Path(name).read_bytes()
    except OSError as error:
        raise Mistake(f"cannot read '{name}': {error.strerror}: give the path of a file, or - for standard input")


def read_text(name):
    data = read_bytes(name)
    if data.startswith(TAG):
        raise Mistake(f"'{name}' is a session file: bin/session show shows it, and with --text as a text")
    try:
        return data.decode("utf-8-sig")
    except UnicodeDecodeError as error:
        line = len(lines_of(data[:error.start].decode("latin-1")))
        raise Mistake(f"'{name}', line {line}: found bytes that are not UTF-8: expected a text of commands (bin/session --help lists them), saved as UTF-8")


def write(path, data):
    try:
        path.write_bytes(data)
    except OSError as error:
        raise Mistake(f"cannot write '{path}': {error.strerror}: give another place with -o")


def with_folder(path):
    try:
        path.mkdir(parents=True, exist_ok=True)
    except OSError as error:
        raise Mistake(f"cannot make the folder '{path}': {error.strerror}: give another place with -o")


def is_same(one, other):
    try:
        return os.path.samefile(one, other)
    except OSError:
        return False


def pack_command(options):
    if options.output and is_same(options.text, options.output):
        raise Mistake(f"'{options.output}' is the text itself: give another place for the session file with -o")
    file, mistakes = pack(read_text(options.text), Path("." if options.text == "-" else options.text).parent)
    if mistakes:
        name = "standard input" if options.text == "-" else options.text
        raise Mistake("\n".join(f"{name}, line {number}: {what}" for number, what in mistakes))
    if len(file) > MOST_FILE_BYTES:
        print(f"bin/session: this file has {len(file)} bytes, and the player takes {MOST_FILE_BYTES}: it refuses it with 1", file=sys.stderr)
    if options.output:
        write(Path(options.output), file)
    elif sys.stdout.isatty():
        raise Mistake("a session file is bytes, not for a terminal: give its name with -o, or redirect standard output")
    else:
        sys.stdout.buffer.write(file)


def show_command(options):
    pieces = played_pieces(read_bytes(options.file))
    lines = as_text(pieces) if options.text else listing(pieces, options.full)
    sys.stdout.write("".join(line + "\n" for line in lines))


def plot_command(options):
    name = "session" if options.file == "-" else Path(options.file).stem
    found = plot.signatures(played_pieces(read_bytes(options.file)))
    if not found:
        raise Mistake(f"'{options.file}' has no signature: no 06, `sign`, is accepted and no 07, `check`, is judged (bin/session show tells why)")
    with_folder(Path(options.output))
    for signature in found:
        ordinal, svg = plot.picture_of(name, signature)
        path = Path(options.output) / f"{name}-row-{ordinal}.svg"
        write(path, svg.encode())
        print(path)


def parser():
    whole = argparse.ArgumentParser(prog="bin/session", description=DESCRIPTION, epilog=EPILOG, formatter_class=argparse.RawDescriptionHelpFormatter,
                                    usage="bin/session [-h] {pack,show,plot} ..")
    commands = whole.add_subparsers(prog="bin/session", required=True, metavar="{pack,show,plot}", help=argparse.SUPPRESS)
    packing = commands.add_parser("pack", help="text to session file", epilog=EPILOG, formatter_class=argparse.RawDescriptionHelpFormatter)
    packing.add_argument("text", metavar="TEXT", help="a text, or - for standard input")
    packing.add_argument("-o", dest="output", metavar="FILE", help="where to write the session file (default: standard output)")
    packing.set_defaults(run=pack_command)
    showing = commands.add_parser("show", help="each command with its row")
    showing.add_argument("file", metavar="FILE", help="a session file, or - for standard input")
    showing.add_argument("--full", action="store_true", help="long lists whole")
    showing.add_argument("--text", action="store_true", help="as the text that pack takes")
    showing.set_defaults(run=show_command)
    plotting = commands.add_parser("plot", help="an SVG of each signature")
    plotting.add_argument("file", metavar="FILE", help="a session file, or - for standard input")
    plotting.add_argument("-o", dest="output", metavar="FOLDER", default=".", help="where to write the pictures (default: this folder)")
    plotting.set_defaults(run=plot_command)
    return whole


def run(options):
    """What was asked for, with all of it written. A reader that has seen enough is no fault."""
    if sys.stdout is None:
        raise Mistake("cannot write: standard output is closed")
    sys.stdout.reconfigure(encoding="utf-8", errors="surrogateescape")  # as texts are read, whatever the terminal's; names of files may be any bytes
    try:
        options.run(options)
        sys.stdout.flush()
    except BrokenPipeError:
        os.dup2(os.open(os.devnull, os.O_WRONLY), sys.stdout.fileno())
    except OSError as error:
        os.dup2(os.open(os.devnull, os.O_WRONLY), sys.stdout.fileno())
        raise Mistake(f"cannot write: {error.strerror}: see to standard output")


def main():
    options = parser().parse_args()
    try:
        run(options)
    except Mistake as mistake:
        for line in str(mistake).split("\n"):
            print(f"bin/session: {line}", file=sys.stderr)
        sys.exit(2)
