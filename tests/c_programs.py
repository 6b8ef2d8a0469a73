"""Programs over include/passign.h besides the examples: one in C++ (tests/header.cpp), and one that calls every function from several threads at once
(tests/threads.c): what a call answers and writes there must be what it does alone, and what the reference does. The library has no memory of its own."""

import re
import subprocess
from pathlib import Path
from tempfile import TemporaryDirectory

import library_calls
from building import REPOSITORY, SANITIZERS, archive, c_program
from c_library import ENTRIES, GUARD, as_fed
from compare_calls import TAKE_A_RULE, expected
from reference.challenge import RULES
from reference.parameters import SETS

ROUNDS, TIMES = 4, 40  # under the sanitizers a quarter as often
THREAD_SANITIZER = "-fsanitize=thread"
EXAMPLES = [REPOSITORY / "examples" / folder for folder in ("sign", "marker")]


def writable_sections():
    """Of the static library: where a state could be."""
    said = subprocess.run(["size", "-A", archive("passign_c")], stdout=subprocess.PIPE, text=True, check=True).stdout
    return [name for name, size in re.findall(r"^(\.t?(?:data|bss)\S*)\s+(\d+)", said, re.MULTILINE) if int(size) and not name.startswith(".data.rel.ro")]


def works(folder, sanitizer):
    """Whether a program can be built with it, and runs: not every compiler and kernel go with the thread sanitizer."""
    source, program = folder / "nothing.c", folder / "nothing"
    source.write_text("int main(void) { return 0; }\n")
    commands = ["cc", sanitizer, source, "-o", program], [program]
    return all(subprocess.run(command, stdout=subprocess.PIPE, stderr=subprocess.PIPE).returncode == 0 for command in commands)


def cpp_agrees(folder):
    for name, *flags in (("plain",), ("sanitized", SANITIZERS)):
        program = c_program("tests/header.cpp", folder / name, "-std=c++11", "-Wpedantic", REPOSITORY / "tests/header_again.cpp", *flags, compiler="c++")
        done = subprocess.run([program, *EXAMPLES], stdout=subprocess.PIPE, stderr=subprocess.STDOUT, text=True)
        if done.returncode != 0:
            print(f"C programs: DIFFERENCE in tests/header.cpp, {name}: exit status {done.returncode}, {done.stdout}")
            return False
    return True


def calls_of(seed):
    """Of each function in each set, good and with two damages; of those that take a rule under each."""
    for entry in ENTRIES:
        kinds = ("good", "two damages", *(f"rule {rule}" for rule in RULES if entry in TAKE_A_RULE))
        for s in SETS:
            for kind in kinds:
                yield library_calls.make(seed, f"{entry}/{s.number}/{kind}/0")


def as_written(call):
    """What tests/threads.c writes of a call, by the reference."""
    answer, after = expected(call)
    return answer.to_bytes(4, "little") + b"".join(content[len(GUARD):-len(GUARD)] for content in after.values())


def threads_agree(seed, folder, calls):
    given, wanted = b"".join(as_fed(call.entry, call.arguments) for call in calls), b"".join(map(as_written, calls))
    runs = {"plain": (), SANITIZERS: (SANITIZERS,)}
    if works(folder, THREAD_SANITIZER):
        runs[THREAD_SANITIZER] = (THREAD_SANITIZER,)
    for sanitizer, flags in runs.items():
        program = c_program("tests/threads.c", folder / "threads", "-pthread", *flags)
        times = TIMES // 4 if flags else TIMES
        done = subprocess.run([program, str(ROUNDS), str(times)], input=given, stdout=subprocess.PIPE, stderr=subprocess.PIPE)
        if done.returncode != 0 or done.stdout != wanted:
            print(f"C programs: DIFFERENCE in tests/threads.c, {sanitizer}: exit status {done.returncode}, what is answered alone "
                  f"{'agrees' if done.stdout == wanted else 'differs from the reference'}: {done.stderr.decode()[-2000:]}; again: tests/run --seed {seed}")
            return None
    return list(runs)


def run(seed):
    """True when all agree."""
    sections = writable_sections()
    if sections:
        print(f"C programs: DIFFERENCE: the library has memory of its own, which threads would share: {sections}")
        return False
    with TemporaryDirectory() as folder:
        calls = list(calls_of(seed))
        built = threads_agree(seed, Path(folder), calls) if cpp_agrees(Path(folder)) else None
    if not built:
        return False
    left_out = "" if THREAD_SANITIZER in built else "; the thread sanitizer does not run here"
    print(f"C programs: a program in C++ runs; {len(calls)} calls in threads answer as alone and as the reference, {', '.join(built)}{left_out}, seed {seed}")
    return True
