"""The tables of tools/session_files, which bin/session goes by, against README's tables, the C header's texts and the reference."""

import re
import sys

import compare_calls
import compare_sessions
import headers
from building import REPOSITORY
from reference import refusals as reference_refusals
from reference import session as reference_session
from reference.parameters import SETS as REFERENCE_SETS

sys.path.insert(0, str(REPOSITORY / "tools"))

from session_files.commands import COMMANDS, TAG  # noqa: E402
from session_files.refusals import REFUSALS  # noqa: E402
from session_files.sets import SETS  # noqa: E402


def table_of_readme(first_column, second_column):
    """The rows of the table whose head starts so."""
    text = (REPOSITORY / "README.md").read_text()
    found = re.search(rf"^\| {first_column} \| {second_column} \|.*\n\|[-|]+\|\n((?:\|.*\n)+)", text, re.MULTILINE)
    return found.group(1).splitlines() if found else []


def readme_differences():
    for head, rows in ((("command", "word"), COMMANDS), (("set", "N"), SETS), (("number", "what is wrong"), REFUSALS.values())):
        found, wanted = table_of_readme(*head), [row.readme_row for row in rows]
        for line in sorted(set(found) ^ set(wanted)) or ([] if found == wanted else ["the order of its rows"]):
            yield f"README's table by '{head[0]}' and tools/session_files: {line}"
    ends = [str(refusal.number) for refusal in REFUSALS.values() if refusal.ends]
    if f"{', '.join(ends[:-1])} and {ends[-1]} end the session" not in (REPOSITORY / "README.md").read_text():
        yield f"README does not say that {ends} end the session"


def reference_differences():
    if [tuple(s) for s in SETS] != [tuple(s) for s in REFERENCE_SETS] or TAG != reference_session.TAG_BYTES:
        yield "the sets or the tag are not those of the reference"
    if {command.byte for command in COMMANDS} != {0, *reference_session.PLAYED}:
        yield "the commands are not those of the reference"
    for command in COMMANDS:
        for s, of_reference in zip(SETS, REFERENCE_SETS):
            if command.operand.bytes_in(s) != reference_session.operand_length(of_reference, command.byte):
                yield f"the operand of {command.byte:02X} in set {s.number} has another size in the reference"
    numbers = {value for name, value in vars(reference_refusals).items() if isinstance(value, int)}
    if numbers != set(REFUSALS) or {number for number, refusal in REFUSALS.items() if refusal.ends} != reference_refusals.END_THE_SESSION:
        yield "the refusals, or those that end a session, are not those of the reference"


def needs_differences():
    """Which commands need nothing, and which more than a set, by what the reference does."""
    if {command.byte for command in COMMANDS if not command.needs} != set(reference_session.NEED_NO_SET):
        yield "other commands need no set in the reference"
    refused = {int(row[:2], 16) for row in compare_sessions.REFUSED_ROWS if row.endswith(" 10")}
    if {command.byte for command in COMMANDS if command.needs not in ("", "a set")} != refused:
        yield f"the commands that need more than a set are {sorted(refused)}"


def givers_differences():
    """Which numbers the library gives and which a session, by what the comparisons with the reference must see."""
    of_library = set().union(*compare_calls.REFUSALS.values())
    of_session = {int(row.split(" ")[2 if row.startswith("0 ") else 1]) for row in compare_sessions.REFUSED_ROWS} | {14}
    for who, numbers in (("library", of_library), ("session", of_session)):
        if {number for number, refusal in REFUSALS.items() if who in refusal.by} != numbers:
            yield f"the refusals of the {who} are {sorted(numbers)}"
    if headers.refusal_texts() != {number: REFUSALS[number].text_for_c for number in of_library}:
        yield "passign_refusal_text of include/passign.h has other words than tools/session_files/refusals.py"


def run():
    """True when all agree."""
    differences = [*readme_differences(), *reference_differences(), *needs_differences(), *givers_differences()]
    for difference in differences:
        print(f"tables: DIFFERENCE: {difference}")
    print(f"tables: {len(COMMANDS)} commands, {len(SETS)} sets and {len(REFUSALS)} refusals of bin/session, README, the header and the reference"
          + ("" if differences else " agree"))
    return not differences
