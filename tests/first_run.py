"""The first run of bin/play and bin/session, with a stand-in for rt that proves nothing and takes its time: what is told while they build, on a terminal
and elsewhere; that an interrupt leaves no process, no temporary file and nothing that the next run trips over; and how a failed build is told."""

import os
import pty
import re
import select
import shutil
import signal
import subprocess
import time
from pathlib import Path
from tempfile import TemporaryDirectory

from building import REPOSITORY

CRATES = "# four of them are wanted\nalpha:\nbeta: alpha\ngamma: alpha beta\nother: alpha\nplay: gamma\n"
WANTED = ("alpha", "beta", "gamma", "play")
MOST_SECONDS = 60
TIME = r"\d+:\d\d"

# As rt does, it begins each crate with a line of it, proves in the background, where an interrupt of the terminal is not heard, and runs the player when it is
# built. The player is there from the start, as one of which the linker has written a part.
RT = """#!/bin/bash
[ "$*" = run ] && [ -e ../play ] || exit 9
mkdir -p out
echo half > out/play
for crate in alpha beta gamma play; do
    echo "rt: chose --jobs 2 for $crate" >&2
    (echo $BASHPID >> "$STAND_IN/pids"; touch "$TMPDIR/of.$crate"; sleep "$DELAY"; echo $crate >> "$STAND_IN/proved") &
    wait
    [ "$FAILING" != $crate ] || { echo "fn $crate::f: no proof" >&2; exit 1; }
done
printf '#!/bin/sh\\ncat > /dev/null\\necho 0 00 15\\n' > out/play
chmod 755 out/play
out/play
"""


class Copy:
    """bin/ and tools/ beside crates that nothing is in, and the stand-in first on the path."""

    def __init__(self, folder, delay):
        self.root, self.stand_in, self.temporary = folder / "kit", folder / "stand-in", folder / "tmp"
        for made in (self.root / "crates/play/src", self.stand_in, self.temporary):
            made.mkdir(parents=True)
        for part in ("bin", "tools"):
            shutil.copytree(REPOSITORY / part, self.root / part)
        (self.root / "crates.txt").write_text(CRATES)
        (self.root / "a.session").write_bytes(b"no session")
        (self.stand_in / "rt").write_text(RT)
        (self.stand_in / "rt").chmod(0o755)
        self.environment = {**os.environ, "PATH": f"{self.stand_in}:{os.environ['PATH']}", "STAND_IN": str(self.stand_in), "DELAY": str(delay), "FAILING": "",
                            "TMPDIR": str(self.temporary)}

    def run(self, *command, **changes):
        done = subprocess.run(command, cwd=self.root, env={**self.environment, **changes}, stdin=subprocess.DEVNULL, stdout=subprocess.PIPE,
                              stderr=subprocess.PIPE, text=True, timeout=MOST_SECONDS)
        return done.returncode, done.stdout, done.stderr

    def left_over(self):
        """Processes and temporary files that should not be there."""
        pids = [int(pid) for pid in (self.stand_in / "pids").read_text().split()]
        return [pid for pid in pids if Path(f"/proc/{pid}").exists()] + [path.name for path in self.temporary.iterdir()]


def on_terminal(copy, command, interrupt_at=None):
    """Exit status and what a terminal shows; with a Ctrl-C when it shows that text."""
    pid, terminal = pty.fork()
    if pid == 0:
        signal.signal(signal.SIGINT, signal.SIG_DFL)  # it is not, where the tests run in the background
        os.chdir(copy.root)
        os.execve(copy.root / command[0], command, copy.environment)
    shown, end = b"", time.monotonic() + MOST_SECONDS
    while time.monotonic() < end:
        if not select.select([terminal], [], [], 0.2)[0]:
            continue
        try:
            part = os.read(terminal, 4096)
        except OSError:  # the other side is closed
            break
        shown += part
        if interrupt_at and interrupt_at in shown:
            os.write(terminal, b"\x03")
            interrupt_at = None
    else:
        os.kill(pid, signal.SIGKILL)
    status = os.waitpid(pid, 0)[1]
    os.close(terminal)
    return os.WEXITSTATUS(status) if os.WIFEXITED(status) else -os.WTERMSIG(status), shown.decode()


def fault_elsewhere(folder):
    """A line for each crate that is wanted, and none where nothing is to be built."""
    copy = Copy(folder, 1.2)
    status, rows, told = copy.run("bin/play", "a.session")
    lines = [re.fullmatch(rf"proving (\w+): (\d) of 4 crates proved, {TIME} so far", line) for line in told.splitlines()[1:-1]]
    if not all(lines) or [line.groups() for line in lines] != [(crate, str(at)) for at, crate in enumerate(WANTED)]:
        return f"elsewhere bin/play tells {told!r}"
    if (status, rows) != (0, "0 00 15\n") or not told.splitlines()[-1].startswith("built target/bin/play in ") or copy.left_over():
        return f"bin/play ends with {status}, {rows!r} and {told!r}, and leaves {copy.left_over()}"
    again = copy.run("bin/play", "a.session"), copy.run("bin/session", "show", "a.session")[::2]
    return None if again == ((0, "0 00 15\n", ""), (0, "")) else f"a second run tells {again}"


def fault_on_terminal(folder):
    """One line, which is written over; the last one stays."""
    copy = Copy(folder, 1.2)
    status, shown = on_terminal(copy, ["bin/play", "a.session"])
    lines = [line for line in re.sub(r"[^\n]*\r\x1b\[K", "", shown.replace("\r\n", "\n")).split("\n") if line]
    if status != 0 or len(lines) != 2 or not lines[0].startswith("built target/bin/play in ") or lines[1] != "0 00 15":
        return f"on a terminal bin/play leaves {lines}, status {status}"
    missing = [crate for at, crate in enumerate(WANTED) if not re.search(rf"proving {crate}: {at} of 4 crates proved, {TIME} so far", shown)]
    return f"a terminal does not show that {missing} are proved: {shown!r}" if missing else None


def fault_of_interrupt(folder, *command):
    """What is being proved is ended, and not waited for; the next run does all of it."""
    copy = Copy(folder, 8)
    status, shown = on_terminal(copy, list(command), b"proving alpha")
    ended = not (copy.stand_in / "proved").exists()
    if status not in (130, -signal.SIGINT) or "stopped after" not in shown or "Traceback" in shown or copy.left_over() or not ended:
        return f"{command[0]}, interrupted, ends with {status}, shows {shown!r} and leaves {copy.left_over()}{'' if ended else ', after waiting'}"
    again = copy.run(*command, DELAY="0")
    return None if again[0] == 0 and "0 00 15" in again[1] else f"{command[0]} after an interrupt: {again}"


def fault_of_failure(folder):
    copy = Copy(folder, 0)
    failing, ok = copy.run("bin/play", "a.session", FAILING="beta"), copy.run("bin/session", "show", "a.session")
    (copy.root / "crates/play/src/new.rt").write_text("")
    without = copy.run("bin/play", "a.session", PATH="/usr/bin:/bin")
    if failing[0] != 2 or "the build of play failed" not in failing[2] or "fn beta::f: no proof" not in failing[2] or ok[0] != 0:
        return f"a failed build gives {failing}, and the next one {ok}"
    return None if without[0] == 2 and "install the Rattle toolchain" in without[2] else f"without rt bin/play gives {without}"


def fault_of_two(folder):
    """The second waits for the first, and builds nothing."""
    copy = Copy(folder, 1)
    first = subprocess.Popen(["bin/play", "a.session"], cwd=copy.root, env=copy.environment, stdout=subprocess.DEVNULL, stderr=subprocess.DEVNULL)
    while not (copy.stand_in / "pids").exists():
        time.sleep(0.05)
    second = copy.run("bin/play", "a.session")
    if first.wait() != 0 or second[:2] != (0, "0 00 15\n") or second[2] != "waiting for another build to end\nthe other build is done\n":
        return f"of two builds at once the second gives {second}"
    return None


def run():
    """True when all is as it should be."""
    cases = ((fault_elsewhere,), (fault_on_terminal,), (fault_of_interrupt, "bin/play", "a.session"), (fault_of_interrupt, "bin/session", "show", "a.session"),
             (fault_of_failure,), (fault_of_two,))
    for case, *arguments in cases:
        with TemporaryDirectory() as folder:
            fault = case(Path(folder), *arguments)
        if fault:
            print(f"first run: DIFFERENCE: {fault}")
            return False
    print(f"first run: {len(cases)} builds with a stand-in for rt tell their progress, and leave nothing behind")
    return True
