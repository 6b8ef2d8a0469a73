#!/usr/bin/env python3
"""Writes vectors/*.json, the same bytes each time: library calls and sessions with what they must give, for engineers who test an implementation of
their own. vectors/README.md describes the files, tests/vectors.py holds the kit to them; the cases stand in tests/vector_cases."""

import json
import sys
from pathlib import Path

sys.dont_write_bytecode = True
TESTS = Path(__file__).resolve().parent
sys.path.insert(0, str(TESTS))

from reference.challenge import RULES  # noqa: E402
from reference.parameters import SETS  # noqa: E402
from vector_cases.case import text_of  # noqa: E402
from vector_cases.check import check_cases  # noqa: E402
from vector_cases.codec import encoding_cases  # noqa: E402
from vector_cases.draw import draw_cases  # noqa: E402
from vector_cases.evaluate import evaluate_all_cases, evaluate_cases  # noqa: E402
from vector_cases.public_key import public_key_cases  # noqa: E402
from vector_cases.whole_sessions import session_cases  # noqa: E402
from vector_cases.sign import sign_cases  # noqa: E402

FOLDER = TESTS.parent / "vectors"


def in_each_set(*makers):
    return [made for s in SETS for cases in makers for made in cases(s)]


def under_each_rule(cases):
    return [made for s in SETS for rule in RULES for made in cases(s, rule)]


# By name what a file is about, and what makes its cases.
FILES = {
    "draw.json": ("passign_draw: the challenge of a pool.", lambda: in_each_set(draw_cases)),
    "evaluate.json": ("passign_evaluate and passign_evaluate_all: evaluations, signed.", lambda: in_each_set(evaluate_cases, evaluate_all_cases)),
    "public_key.json": ("passign_public_key: the public key of a secret key.", lambda: in_each_set(public_key_cases)),
    "sign.json": ("passign_sign: the signature of the first mask that passes.", lambda: under_each_rule(sign_cases)),
    "check.json": ("passign_check: yes, no or a refusal.", lambda: under_each_rule(check_cases)),
    "encodings.json": ("The readers and writers of secret keys, public keys and signatures.", lambda: in_each_set(encoding_cases)),
    "sessions.json": ("Session files, and the rows that playing them prints.", lambda: list(session_cases())),
}


def files():
    """Each file's name and text."""
    for name, (about, cases) in FILES.items():
        yield name, text_of({"about": f"{about} README.md beside this file describes the fields.", "cases": cases()}) + "\n"


def main():
    FOLDER.mkdir(exist_ok=True)
    for name, text in files():
        (FOLDER / name).write_text(text)
        print(f"wrote {name}, {len(json.loads(text)['cases'])} cases in {len(text)} bytes")


if __name__ == "__main__":
    main()
