"""Each session of examples/sessions through bin/play: it must print the rows that stand beside it, which the reference gives too."""

import subprocess

from building import REPOSITORY
from reference.session import play_to_the_end


def run(player):
    """True when all agree. Without player the reference runs alone."""
    files = sorted((REPOSITORY / "examples/sessions").glob("*.session"))
    for file in files:
        stored = file.with_suffix(".rows").read_bytes()
        printed = subprocess.run([player, file], stdout=subprocess.PIPE, check=True).stdout if player else stored
        for who, rows in (("bin/play", printed), ("the reference", play_to_the_end(file.read_bytes()))):
            if rows != stored:
                print(f"examples: DIFFERENCE: {who} does not give {file.with_suffix('.rows').name}; if the session was changed, run tests/make_examples.py")
                return False
    print(f"examples: {len(files)} sessions print the rows beside them")
    return bool(files)
