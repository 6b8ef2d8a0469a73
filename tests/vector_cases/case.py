"""A case and its text: a call with what the reference gives, as vectors/README.md describes it."""

import json
from itertools import groupby

from reference import encodings, library

LONG_RUN = 150  # so many equal elements in a row, or more, are written as one that is repeated

# By entry its result buffers, which stand behind what is read and ahead of the rule, and the right length of each.
RESULTS = {
    "draw": {"challenge": lambda s: s.N},
    "evaluate": {"evaluations": lambda s: s.t},
    "evaluate_all": {"evaluations": lambda s: s.N - 1},
    "public_key": {"public_key": encodings.public_key_length},
    "sign": {"signature": encodings.signature_length},
    "check": {},
    "read_secret_key": {"coefficients": lambda s: s.N},
    "write_secret_key": {"secret_key": encodings.secret_key_length},
    "read_public_key": {"points": lambda s: s.t, "evaluations": lambda s: s.t},
    "write_public_key": {"public_key": encodings.public_key_length},
    "read_signature": {"entries": lambda s: s.b, "z": lambda s: s.N},
    "write_signature": {"signature": encodings.signature_length},
}
BYTE_RESULTS = ("secret_key", "public_key", "signature")


def shown(value):
    """As the files have it: a number; a list of numbers; bytes in upper-case hex. A long run is one item that is repeated, alone or in a list."""
    if isinstance(value, int):
        return value
    hexed, items = isinstance(value, bytes), []
    for element, run in groupby(value):
        times = len(list(run))
        if times >= LONG_RUN:
            items.append({"repeat": f"{element:02X}" if hexed else element, "times": times})
        elif not hexed:
            items += [element] * times
        elif items and isinstance(items[-1], str):
            items[-1] += f"{element:02X}" * times
        else:
            items.append(f"{element:02X}" * times)
    if len(items) == 1 and not isinstance(items[0], int):
        return items[0]
    return "" if hexed and not items else items


def case(entry, s, rule, what, comment, answer, inputs, **lengths):
    """A call and what the reference gives. `inputs` are by name, in the header's order; `lengths` are of result buffers, where they are not right."""
    name = f"{entry}, set {s.number}{f', rule {rule}' if rule else ''}: {what}"
    last = {"rule": inputs["rule"]} if "rule" in inputs else {}
    read = {argument: value for argument, value in inputs.items() if argument not in last}
    right = {result: length(s) for result, length in RESULTS[entry].items()}
    assert all(right[told[:-len("_length")]] != length for told, length in lengths.items()), name
    buffers = {result: [None] * lengths.get(f"{result}_length", length) for result, length in right.items()}
    given = getattr(library, entry)(*read.values(), *buffers.values(), *last.values())
    assert given == answer, f"{name}: the reference answers {given}, not {answer}"
    if " before " in what:
        comment = f"{comment[:-1]}: {answer} comes first."
    accepted = given == library.DONE or given >= library.SIGNED
    results = {result: bytes(values) if result in BYTE_RESULTS else values for result, values in buffers.items() if accepted}
    return {"name": name, "comment": comment, "entry": entry, "set": s.number, **({"rule": rule} if rule else {}),
            "inputs": {argument: shown(value) for argument, value in {**read, **lengths, **last}.items()},
            "expected": {"answer": given, **{result: shown(values) for result, values in results.items()}}}


def text_of(value, indent=""):
    """JSON with one key a line; a list with numbers has one line, another list one for each item."""
    inner = indent + "  "
    if isinstance(value, dict) and "repeat" not in value:
        fields = [f"{inner}{json.dumps(key)}: {text_of(each, inner)}" for key, each in value.items()]
        return "{\n" + ",\n".join(fields) + f"\n{indent}}}"
    if isinstance(value, list) and value and not any(isinstance(each, int) for each in value):
        return "[\n" + ",\n".join(inner + text_of(each, inner) for each in value) + f"\n{indent}]"
    return json.dumps(value, separators=(",", ":")) if isinstance(value, list) else json.dumps(value)
