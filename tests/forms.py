#!/usr/bin/env python3
"""Counts the places in crates/*/src that could be written in a newer form: docs/DESIGN-PASS.md says what each point is about.

    tests/forms.py              for each rule of points 1 to 7 how many places, in all and by crate, and the figures of point 8
    tests/forms.py --places     each place too, as FILE:LINE NAME, with what was seen there
    tests/forms.py --point N    one point alone, with its places
    tests/forms.py --rule N.M   one rule alone, with its places
    tests/forms.py --page       the lists of docs/DESIGN-PASS.md

Every rule goes by the shape of the code, and none by the names of today. A place is one function, field, case, constant or loop. The table by crate has each
function, type, constant and loop once for a point, whatever its rules find there. Nothing is written.
"""

import argparse
import re
from collections import Counter, defaultdict
from dataclasses import dataclass, field
from difflib import SequenceMatcher
from itertools import combinations
from pathlib import Path

REPOSITORY = Path(__file__).resolve().parent.parent
TOKEN = re.compile(r"""//[^\n]*|b?"(?:\\.|[^"\\])*"|b?'(?:\\.[^']*|[^\\'])'|'[a-z_]\w*|0x[0-9a-fA-F_]+\w*|\d[\d_]*(?:[a-z]\w*)?|[^\W\d]\w*|->|=>|::|\.\.=|\.\.|==|!=|<=
    |>=|&&|\|\||[-+*/%]=|\S""", re.VERBOSE)
OPEN, CLOSE = {"(": ")", "[": "]", "{": "}"}, {")", "]", "}"}
WHOLE = {"u8", "u16", "u32", "u64", "u128", "usize", "i8", "i16", "i32", "i64", "i128", "isize"}
WORDS = {"let", "mut", "while", "for", "in", "loop", "if", "else", "match", "return", "break", "continue", "as", "self", "Self", "true", "false", "move", "ref", "_"}


@dataclass
class Item:
    crate: str
    file: str
    line: int
    name: str
    exported: bool = False
    params: list = field(default_factory=list)
    result: list = field(default_factory=list)
    requires: list = field(default_factory=list)
    ensures: list = field(default_factory=list)
    body: list = field(default_factory=list)
    lines: list = field(default_factory=list)
    fields: list = field(default_factory=list)
    value: list = field(default_factory=list)


# ---- Reading the sources


def tokens_of(text):
    """The tokens of a source, each with its line, without comments."""
    found, line, at = [], 1, 0
    for match in TOKEN.finditer(text):
        line += text.count("\n", at, match.start())
        at = match.start()
        if not match.group().startswith("//"):
            found.append((match.group(), line))
    return found


def closing(words, at):
    """The place behind the bracket that closes the one at a place."""
    depth = 0
    for i in range(at, len(words)):
        depth += (words[i] in OPEN) - (words[i] in CLOSE)
        if depth == 0:
            return i + 1
    return len(words)


def behind_angles(words, at):
    """The place behind the generic parameters that open at a place."""
    depth = 0
    for i in range(at, len(words)):
        depth += (words[i] == "<") - (words[i] == ">")
        if depth == 0:
            return i + 1
    return len(words)


def behind(words, at, ends):
    """The first place from `at` on, outside brackets, that has one of these words."""
    while at < len(words) and words[at] not in ends:
        at = closing(words, at) if words[at] in OPEN else at + 1
    return at


def split_at(words, mark):
    """The parts between the marks that stand outside brackets."""
    parts, start, at, angles = [], 0, 0, 0
    while at < len(words):
        if words[at] in OPEN:
            at = closing(words, at)
            continue
        angles += (words[at] == "<") - (words[at] == ">")
        if words[at] == mark and (mark != "," or angles <= 0):
            parts.append(words[start:at])
            start = at + 1
        at += 1
    return [part for part in [*parts, words[start:]] if part]


def named(part):
    """A parameter or a field as its name and its type."""
    while part[:1] and part[0] in ("#", "pub", "mut"):
        part = part[closing(part, 1):] if part[1:2] in (["["], ["("]) else part[1:]
    at = part.index(":") if ":" in part else len(part)
    return ("self", ["Self"]) if "self" in part[:at] or part == ["&", "self"] else ("".join(part[:at]), part[at + 1:])


class Reader:
    """The functions, structs, enums and constants of one file."""

    def __init__(self, crate, path):
        self.crate, self.file = crate, str(path.relative_to(REPOSITORY))
        pairs = tokens_of(path.read_text())
        self.words, self.lines = [word for word, _ in pairs], [line for _, line in pairs]
        self.items = {"fn": [], "struct": [], "enum": [], "const": []}
        self.read(0, len(self.words), "")

    def item(self, kind, at, name, **more):
        self.items[kind].append(Item(self.crate, self.file, self.lines[at], name, **more))

    def read(self, at, end, owner):
        exported = False
        while at < end:
            word = self.words[at]
            if word == "extern":
                exported = True
            if word == "#":
                at = closing(self.words, behind(self.words, at, "["))
            elif word in ("ghost", "use", "type"):
                at = behind(self.words, at, ";") + 1
            elif word in ("impl", "trait", "mod"):
                at = self.block(at, owner)
            elif word == "fn":
                at, exported = self.function(at, owner, exported), False
            elif word in ("struct", "enum"):
                at = self.type(word, at)
            elif word in ("const", "static") and self.words[at + 1] not in ("fn", "unsafe"):
                at = self.constant(at, owner)
            else:
                at = closing(self.words, at) if word in OPEN else at + 1

    def block(self, at, owner):
        start = behind(self.words, at, "{;")
        if self.words[start] == ";":
            return start + 1
        head = self.words[at + 1:start]
        head = head[:head.index("where")] if "where" in head else head
        head = head[head.index("for") + 1:] if "for" in head else head[behind_angles(head, 0):] if head[0] == "<" else head
        end = closing(self.words, start)
        self.read(start + 1, end - 1, owner if self.words[at] == "mod" else next((word for word in head if word[0].isalpha()), "") + "::")
        return end

    def function(self, at, owner, exported):
        words, name = self.words, owner + self.words[at + 1]
        start = at + 2 if words[at + 2] != "<" else behind_angles(words, at + 2)
        head = closing(words, start)
        made = {"params": [named(part) for part in split_at(words[start + 1:head - 1], ",")], "requires": [], "ensures": []}
        stop = behind(words, head, ("requires", "ensures", "where", "{", ";"))
        made["result"] = words[head + 1:stop] if words[head] == "->" else []
        while words[stop] not in ("{", ";"):
            opened = behind(words, stop, "{;")
            if words[stop] not in made or words[opened] == ";":
                stop = opened if words[opened] == ";" else behind(words, stop + 1, ("requires", "ensures", "{", ";"))
                continue
            made[words[stop]].append(words[opened + 1:closing(words, opened) - 1])
            stop = closing(words, opened)
        end = closing(words, stop) if words[stop] == "{" else stop + 1
        self.item("fn", at, name, exported=exported, body=words[stop + 1:end - 1], lines=self.lines[stop + 1:end - 1], **made)
        return end

    def type(self, kind, at):
        opened = behind(self.words, at, "{(;")
        if self.words[opened] == ";":
            return opened + 1
        end = closing(self.words, opened)
        parts = [part for part in split_at(self.words[opened + 1:end - 1], ",") if part[0] != "ghost"]
        self.item(kind, at, self.words[at + 1], fields=[named(part) if kind == "struct" else (part[0], part[1:]) for part in parts])
        return end

    def constant(self, at, owner):
        end, equals = behind(self.words, at, ";"), behind(self.words, at, "=;")
        self.item("const", at, owner + self.words[at + 1], result=self.words[at + 3:equals], value=self.words[equals + 1:end])
        return end + 1


def crates():
    return sorted(path.name for path in (REPOSITORY / "crates").iterdir() if (path / "src").is_dir())


class Tree:
    """All sources, and what the rules ask about them."""

    def __init__(self):
        found = {"fn": [], "struct": [], "enum": [], "const": []}
        for crate in crates():
            for path in sorted((REPOSITORY / "crates" / crate / "src").rglob("*.rt")):
                for kind, items in Reader(crate, path).items.items():
                    found[kind] += items
        self.functions, self.structs, self.enums, self.constants = (found[kind] for kind in ("fn", "struct", "enum", "const"))
        self.codes, self.direct = self.numbered(), self.listed_crates()

    def listed_crates(self):
        """What each crate lists in crates.txt."""
        lines = [line.split("#")[0] for line in (REPOSITORY / "crates.txt").read_text().splitlines()]
        pairs = [line.split(":") for line in lines if ":" in line]
        return {left.split()[0]: set(right.split()) for left, right in pairs}

    def below(self, crate):
        """Every crate that a crate builds on."""
        found, fresh = set(), {crate}
        while fresh:
            fresh = {name for one in fresh for name in self.direct.get(one, ())} - found
            found |= fresh
        return found

    def numbered(self):
        """Constants of one file that number kinds: of one type of whole numbers, with values one after the other from 0 or 1."""
        families = defaultdict(list)
        for constant in self.constants:
            if constant.result[0] in WHOLE - {"usize"} and len(constant.result) == 1 and re.fullmatch(r"\d+", constant.value[0]) and len(constant.value) == 1:
                families[constant.file, constant.result[0]].append(constant)
        found = []
        for family in families.values():
            values = sorted(int(constant.value[0]) for constant in family)
            if values == list(range(values[0], values[0] + len(values))) and values[0] in (0, 1):
                found += family
        return found


# ---- Small questions


def last_name(item):
    return item.name.split("::")[-1]


def calls(words):
    """The names that are called, without the paths before them."""
    return {words[i] for i in range(len(words) - 1) if words[i + 1] == "(" and words[i][0].isalpha() and words[i] not in WORDS and words[i][0].islower()}


def is_slice(kind):
    bare = bare_type(kind)
    return bare[:1] == ["["]


def bare_type(kind):
    return [word for word in kind if word not in ("&", "mut") and not word.startswith("'")]


def listed(kind):
    """A type without its borrows, an array as a slice."""
    bare = bare_type(kind)
    return " ".join([*bare[:bare.index(";")], "]"] if bare[:1] == ["["] and bare.count("[") == 1 and ";" in bare else bare)


def is_written(kind):
    return kind[:2] == ["&", "mut"] or "mut" in kind[:3]


def is_number(kind):
    return len(kind) == 1 and kind[0] in WHOLE


def is_literal(word):
    return word[0].isdigit() or word in ("true", "false")


def branches(words):
    """Each `if` as its test, its block and what stands behind it."""
    for i, word in enumerate(words):
        if word == "if" and words[i + 1:i + 2] != ["let"]:
            opened = behind(words, i + 1, "{")
            end = closing(words, opened)
            yield words[i + 1:opened], words[opened + 1:end - 1], words[end:]


def matches(words):
    """Each `match` as its subject and its arms, a pattern and a body each."""
    for i, word in enumerate(words):
        if word != "match":
            continue
        opened = behind(words, i + 1, "{")
        inside, arms, at = words[opened + 1:closing(words, opened) - 1], [], 0
        while at < len(inside):
            arrow = behind(inside, at, ("=>",))
            end = closing(inside, arrow + 1) if inside[arrow + 1:arrow + 2] == ["{"] else behind(inside, arrow + 1, ",")
            arms.append((inside[at:arrow], inside[arrow + 1:end]))
            at = end + 1 if inside[end:end + 1] == [","] else end
        yield words[i + 1:opened], arms


def loops(item, kinds=("while", "for", "loop")):
    """Each loop of a function: its word, its line, its head, its body and what stands behind it."""
    for i, word in enumerate(item.body):
        if word in kinds and (word != "for" or item.body[i + 1] != "<"):
            opened = behind(item.body, i + 1, "{")
            end = closing(item.body, opened)
            yield word, item.lines[i], item.body[i + 1:opened], item.body[opened + 1:end - 1], item.body[end:]


def stepped(body):
    """The variables that a loop's body moves by a number: `i += 4` or `i = i + 4`."""
    found = {}
    for i, word in enumerate(body[:-2]):
        if body[i + 1] in ("+=", "-="):
            found[word] = body[i + 2]
        if body[i + 1] == "=" and body[i + 2] == word and body[i + 3:i + 4] in (["+"], ["-"]):
            found[word] = body[i + 4]
    return found


# ---- 1. Enums of the shape of Option or Result, flags with a value beside them, numbers for kinds and refusals


def own_enums(tree):
    """An enum of its own of the shape of Option or Result: a case without a value beside cases with one, or two cases with one value each."""
    for enum in tree.enums:
        full = [name for name, more in enum.fields if more[:1] == ["("]]
        if full and (len(full) < len(enum.fields) or len(full) == 2):
            yield enum, " | ".join(name + "".join(more) for name, more in enum.fields)


def flags_in_structs(tree):
    """A field that is a flag, beside others."""
    for struct in tree.structs:
        for name, kind in struct.fields:
            if kind == ["bool"] and len(struct.fields) > 1:
                yield struct, f"{name}: bool"


def flags_beside(tree):
    """A flag that a function takes, or answers beside what it writes."""
    for item in tree.functions:
        taken = [name for name, kind in item.params if kind == ["bool"]]
        written = [name for name, kind in item.params if is_written(kind)]
        if taken:
            yield item, "takes " + ", ".join(f"{name}: bool" for name in taken)
        elif item.result == ["bool"] and written:
            yield item, "answers bool, writes " + ", ".join(written)


def numbered_constants(tree):
    """A constant that numbers a kind or a refusal: those of a file and type count from 0 or 1 without a gap."""
    for constant in tree.codes:
        yield constant, f"{''.join(constant.result)} = {''.join(constant.value)}"


def code_functions(tree):
    """A function that answers such a number, or one made from an enum's cases; those for C answer it to C."""
    names, found = {last_name(constant) for constant in tree.codes}, {}
    kinds = {constant.result[0] for constant in tree.codes} | {"u32"}
    able = [item for item in tree.functions if len(item.result) == 1 and item.result[0] in kinds]
    while True:
        more = {last_name(item): item for item in able if last_name(item) not in found and gives_code(item, names, set(found), tree)}
        if not more:
            return [(item, "for C" if item.exported else "answers a code") for item in able if last_name(item) in found]
        found.update(more)


def gives_code(item, names, known, tree):
    if item.exported:
        return True
    of_enum = any(len(arms) > 1 and all("::" in pattern or pattern == ["_"] for pattern, _ in arms) for _, arms in matches(item.body))
    handed = any(last_name(item) in calls(other.body) and handed_code(other.body, last_name(item), names) for other in tree.functions)
    return bool(names & set(item.body)) or bool(calls(item.body) & known) or of_enum or handed


def handed_code(words, name, names):
    return any(words[i] == name and words[i + 1:i + 2] == ["("] and names & set(words[i + 2:closing(words, i + 1)]) for i in range(len(words)))


def code_tests(tree):
    """A number code that is tested: `if refusal != 0`, or put into an answer by a test: `if !test { return Refused(CONSTANT) }`."""
    names, codes = {last_name(constant) for constant in tree.codes}, {last_name(item) for item, _ in code_functions(tree)}
    for item in tree.functions:
        bound = {item.body[i + 1] for i in range(len(item.body) - 4) if item.body[i] == "let" and item.body[i + 2] == "=" and item.body[i + 3] in codes}
        tested = sum(1 for test, _, _ in branches(item.body) if len(test) == 3 and test[0] in bound and test[1:] in (["!=", "0"], ["==", "0"]))
        early = sum(1 for _, block, _ in branches(item.body) if block[:1] == ["return"] and names & set(block) and "(" in block)
        if tested + early:
            yield item, f"{tested} of `!= 0`, {early} of an early refusal by number"


def kinds_as_numbers(tree):
    """A parameter or a field that is a number for a kind: by that name and type it is matched against numbers, or compared with a numbered constant, in a
    crate that this one lists; or every call gives it as a number of its own."""
    asked, plain = kinds_asked(tree), literal_arguments(tree)
    for item in [*tree.functions, *tree.structs]:
        known = {item.crate} | (tree.direct.get(item.crate, set()) if item.body and not item.exported else tree.below(item.crate))
        above = [crate for crate in tree.direct if item.crate in tree.below(crate)] if item.fields else []
        pairs = [(name, kind[0]) for name, kind in item.params + item.fields if is_number(kind)]
        held = [f"{name}: {kind}" for name, kind in pairs if asked[name, kind] & (known | set(above)) or (last_name(item), name) in plain]
        if held:
            yield item, ", ".join(held) + (" (for C)" if item.exported else "")


def kinds_asked(tree):
    """Names and types of parameters that are asked for what kind they are, with the crates that ask."""
    names, asked = {last_name(constant) for constant in tree.codes}, defaultdict(set)
    for item in tree.functions:
        numbers = {name: kind[0] for name, kind in item.params if is_number(kind) and kind[0] != "usize"}
        for subject, arms in matches(item.body):
            if sum(is_literal(pattern[0]) for pattern, _ in arms) > 1 and len(subject) == 1 and subject[0] in numbers:
                asked[subject[0], numbers[subject[0]]].add(item.crate)
        for i in range(1, len(item.body) - 1):
            if item.body[i] in ("==", "!=") and item.body[i - 1] in numbers and item.body[i + 1] in names:
                asked[item.body[i - 1], numbers[item.body[i - 1]]].add(item.crate)
    return asked


def literal_arguments(tree):
    """Functions with a parameter of one byte that calls of one crate give as different numbers, and as nothing else."""
    given = defaultdict(set)
    for item in tree.functions:
        for i, word in enumerate(item.body[:-1]):
            if item.body[i + 1] == "(":
                for at, words in enumerate(split_at(item.body[i + 2:closing(item.body, i + 1) - 1], ",")):
                    given[item.crate, word, at].add(" ".join(words))
    return {(last_name(item), name) for item in tree.functions for at, (name, kind) in enumerate(item.params) if kind == ["u8"]
            and len(given[item.crate, last_name(item), at]) > 1 and all(is_literal(word) for word in given[item.crate, last_name(item), at])}


def values_for_none(tree):
    """A value that stands for none: a search that answers the end, a default where an index lies outside, a struct of nothing but zeros."""
    for item in tree.functions:
        searching = [head for _, _, head, body, _ in loops(item) if "&&" in head or "return" in body or "break" in body]
        default = any("<" in test and re.search(r"\w \[", " ".join(block)) and only_literals(rest) for test, block, rest in branches(item.body))
        if searching and item.result == ["usize"]:
            yield item, "answers the end where nothing is found"
        elif default and item.result and item.result != ["bool"]:
            yield item, "answers a default where the index lies outside"
        elif item.body and not item.params and item.result and only_literals(item.body):
            yield item, "answers a value that means none"


def only_literals(words):
    words = words[1:] if words[:1] == ["else"] else words
    numbers = [i for i, word in enumerate(words) if is_literal(word)]
    return bool(numbers) and not {"(", "[", "-"} & set(words) and all(
        is_literal(word) or word in "{},:" or word == "::" or word[0].isupper() or words[i + 1:i + 2] == [":"] for i, word in enumerate(words))


# ---- 2. Twins


def shape_of(item):
    """A function's body with names numbered in their order, and types, constants and numbers by kind alone."""
    seen, made = {}, []
    for word in item.body:
        if word in WHOLE:
            made.append("type")
        elif is_literal(word) or re.fullmatch(r"[A-Z][A-Z0-9_]*", word):
            made.append("number")
        elif word in WORDS or not (word[0].isalpha() or word[0] == "_"):
            made.append(word)
        else:
            made.append(str(seen.setdefault(word, len(seen))))
    return tuple(made)


def equal_groups(tree):
    """Functions whose bodies are equal once types, numbers, constants and names are replaced."""
    groups = defaultdict(list)
    for item in tree.functions:
        if len(item.body) > 2 and shape_of(item) != ("0",) and not item.exported:
            groups[shape_of(item), len(item.params)].append(item)
    return [group for group in groups.values() if len(group) > 1]


def calls_differ(group):
    for i, words in enumerate(zip(*(item.body for item in group), strict=True)):
        if len(set(words)) > 1 and group[0].body[i + 1:i + 2] == ["("]:
            return True
    return False


def equal_twins(tree):
    """A function that another equals once types, numbers, constants and names are replaced (not those for C)."""
    for group in equal_groups(tree):
        for item in group:
            yield item, "as " + ", ".join(told(other, item) for other in group if other is not item)


def near_pairs(tree):
    """Pairs of functions of 25 words or more that are not of one shape, agree in order in four words of five (of two files: in 93 of a hundred), and take as
    many parameters to within two."""
    able = [(item, shape_of(item)) for item in tree.functions if len(item.body) >= 25 and not item.exported]
    for (one, left), (two, right) in combinations(able, 2):
        least = 0.8 if one.file == two.file else 0.93
        matcher = SequenceMatcher(None, left, right, autojunk=False)
        if left != right and abs(len(one.params) - len(two.params)) < 3 and matcher.real_quick_ratio() >= least and matcher.ratio() >= least:
            yield one, two, matcher.ratio()


def near_twins(tree):
    """A function that agrees with another in almost all words, in order."""
    near = defaultdict(list)
    items = {}
    for one, two, ratio in near_pairs(tree):
        for item, other in ((one, two), (two, one)):
            items[id(item)] = item
            near[id(item)].append(f"{told(other, item)} {ratio:.2f}")
    for key, found in near.items():
        yield items[key], "near " + ", ".join(found)


def told(other, item):
    """Another item's name, with its crate or file where that is another."""
    if other.crate != item.crate:
        return f"{other.crate}::{other.name}"
    return other.name if other.file == item.file else f"{Path(other.file).stem}::{other.name}"


def stem(name):
    """A name without a number or a type at its end, nor one of a word within it."""
    return re.sub(r"_?(?:[uif])?\d+(?=_|$)|_usize$", "", name)


def named_twins(tree):
    """A function whose name, but for a number or a type in it, is that of another with as many parameters: copy_u8 and copy_i8, or `wide` in two files."""
    names = defaultdict(list)
    for item in tree.functions:
        if not item.exported and "::" not in item.name and item.name != "main":
            names[stem(item.name), len(item.params), bool(item.result)].append(item)
    for group in names.values():
        for item in group if len(group) > 1 else ():
            yield item, "with " + ", ".join(told(other, item) for other in group if other is not item)


def type_twins(tree):
    """Structs whose fields are of the same kinds, all lists; structs that share two fields or more; enums that share a case with its value."""
    for one in tree.structs:
        lists = [two for two in tree.structs if two is not one and len(two.fields) == len(one.fields) and all(is_slice(kind) for _, kind in one.fields + two.fields)]
        shared = [two for two in tree.structs if two is not one and sum(found in two.fields for found in one.fields) > 1]
        if lists or shared:
            yield one, "with " + ", ".join(told(two, one) for two in [*lists, *shared])
    for one in tree.enums:
        cases = [two for two in tree.enums if two is not one and any(more and (name, more) in two.fields for name, more in one.fields)]
        if cases:
            yield one, "with " + ", ".join(told(two, one) for two in cases)


def constant_twins(tree):
    """A constant that stands in two files, with one name and one value."""
    names = defaultdict(list)
    for constant in tree.constants:
        names[last_name(constant), tuple(constant.value)].append(constant)
    for group in names.values():
        for constant in group if len({item.file for item in group}) > 1 else ():
            yield constant, "with " + ", ".join(told(other, constant) for other in group if other is not constant)


# ---- 3. Loops


def counted_loops(tree):
    """A `while` or a `loop` that moves an index of its test by hand."""
    for item in tree.functions:
        for word, line, head, body, _ in loops(item, ("while", "loop")):
            moved = [f"{name} by {by}" for name, by in stepped(body).items() if (name in head or word == "loop") and (is_literal(by) or by.isupper())]
            if moved:
                yield Item(item.crate, item.file, line, item.name), f"{word} {' '.join(head)}: {', '.join(moved)}"


def other_loops(tree):
    """Any other `while` or `loop`."""
    counted = {(item.file, item.line) for item, _ in counted_loops(tree)}
    for item in tree.functions:
        for word, line, head, _, _ in loops(item, ("while", "loop")):
            if (item.file, line) not in counted:
                yield Item(item.crate, item.file, line, item.name), f"{word} {' '.join(head)}"


# ---- 4. Equality, order, copying, conversion and printing by hand


def plain_conversions(tree):
    """A function from one number to a number of another type, without a call or a loop: `x as u64`."""
    for item in tree.functions:
        kinds = [kind for name, kind in item.params if name != "self"]
        if len(kinds) == 1 and is_number(kinds[0]) and is_number(item.result) and kinds[0] != item.result and not calls(item.body) and not list(loops(item)):
            yield item, f"{kinds[0][0]} to {item.result[0]}"


def casting_arithmetic(tree):
    """Arithmetic on two or more numbers that also casts, in a function of its own."""
    for item in tree.functions:
        if len(item.params) > 1 and all(is_number(kind) for _, kind in item.params) and is_number(item.result) and "as" in item.body and not list(loops(item)):
            yield item, f"{', '.join(kind[0] for _, kind in item.params)} to {item.result[0]}"


def bytes_by_hand(tree):
    """A number put together from bytes, or taken apart: a product, quotient or remainder by a power of 256, in a function that has bytes."""
    for item in tree.functions:
        powers = [i for i, word in enumerate(item.body) if i and re.fullmatch(r"0x1(?:00)+|\d+", word.replace("_", "")) and is_power(word)
                  and (item.body[i - 1] in ("*", "/", "%") or item.body[i + 1:i + 2] == ["*"])]
        kinds = [*item.result, *item.body, *(word for _, kind in item.params for word in kind)]
        if powers and "u8" in kinds:
            yield item, f"{len(powers)} of a power of 256"


def is_power(word):
    value = int(word.replace("_", ""), 0)
    return value in {256 ** k for k in range(1, 8)}


def bit_moves(tree):
    """A rotation or another move of bits that numbers have as a method."""
    for item in tree.functions:
        text = " ".join(item.body)
        if "> >" in text and "< <" in text:
            yield item, "two shifts"


def cases_and_numbers(tree):
    """A `match` that turns an enum's cases into numbers or flags, or numbers into a value of two at most: From, TryFrom, `matches!`."""
    for item in tree.functions:
        for _, arms in matches(item.body):
            cases = all("::" in pattern or pattern == ["_"] for pattern, _ in arms)
            numbers = sum(is_literal(pattern[0]) for pattern, _ in arms) > 1
            called = sum(bool(calls(body)) for _, body in arms)
            if cases and len(item.result) == 1 and item.result[0] in WHOLE | {"bool"} and len(arms) > 1 and called < 2:
                yield item, "cases to " + item.result[0] + (" (for C)" if item.exported else "")
            elif numbers and item.result and not is_number(item.result) and len(item.params) < 3:
                yield item, "numbers to " + "".join(item.result)


def equalities(tree):
    """Equality by hand: of two parameters, of the elements of two lists, of an array place by place."""
    for item in tree.functions:
        if item.result != ["bool"]:
            continue
        kinds = Counter(" ".join(kind) for _, kind in item.params)
        same = [name for name, kind in item.params if kinds[" ".join(kind)] > 1]
        text = " ".join(item.body)
        pair = len(same) > 1 and (text == f"{same[0]} == {same[1]}" or (list(loops(item)) and all(re.search(rf"{name} \[", text) for name in same)))
        places = len(re.findall(r"\w \[ \d+ \] ==", text)) > 1
        if pair or places:
            yield item, "equality"


def comparisons(tree):
    """A comparison of numbers in a function of its own, without a call or a loop."""
    for item in tree.functions:
        if item.result == ["bool"] and item.params and all(is_number(kind) for _, kind in item.params) and not calls(item.body) and not list(loops(item)):
            if not re.fullmatch(r"\w+ == \w+", " ".join(item.body)):
                yield item, " ".join(item.body)


def copies(tree):
    """A loop that copies, casts or clears element by element."""
    element = r"\w+(?: \[ [^\[\]]* \])+"
    for item in tree.functions:
        for _, line, _, body, _ in loops(item):
            steps = [" ".join(part) for part in split_at(body, ";")]
            steps = [step for step in steps if not re.fullmatch(rf"let \w+ = {element}|\w+ [-+]= \w+", step)]
            if steps and all(re.fullmatch(rf"(?:\* \w+|{element}) = (?:\*? ?(?:{element}|\w+)(?: as \w+)?)", step) for step in steps):
                yield Item(item.crate, item.file, line, item.name), "; ".join(steps)


def short_fronts(tree):
    """A minimum, or the front of a list, by a comparison of its own."""
    for item in tree.functions:
        for test, block, rest in branches(item.body):
            if "<" in test and len(item.body) < 40 and rest[:1] == ["else"] and not calls(item.body) - {"len"} and is_least(test, block, rest):
                yield item, " ".join(item.body)


def is_least(test, block, rest):
    """`if a < b { a } else { b }`, or the same of a slice's front."""
    low, high, other = test[:test.index("<")], test[test.index("<") + 1:], rest[2:-1]
    return (block == low and other == high) or (".." in block and len(other) == 1 and other[0] in high)


def printers(tree):
    """A function that stores bytes from a place on and answers the place behind, or that hands a buffer to such a one; a printing loop; a digit's byte."""
    appending = appenders(tree)
    for item in tree.functions:
        if id(item) in appending:
            yield item, "appends to a buffer"
        elif any("io" in body for _, _, _, body, _ in loops(item)):
            yield item, "prints in a loop"
        elif is_number(item.result) and item.params and re.search(r"\b48\b|b'0'", " ".join(item.body)):
            yield item, "a digit's byte"


def appenders(tree):
    able, found = [], {}
    for item in tree.functions:
        buffers = [name for name, kind in item.params if " ".join(kind) == "& mut [ u8 ]"]
        numbers = [name for name, kind in item.params if kind == ["usize"]]
        if buffers and not item.exported:
            able.append(item)
        if any(re.search(rf"\b{name} \[ {number} \] =", " ".join(item.body)) for name in buffers for number in numbers) and item.result == ["usize"]:
            found[id(item)] = item
    while True:
        names = {(item.crate, last_name(item)) for item in found.values() if item.result == ["usize"]}
        more = {id(item): item for item in able if id(item) not in found
                and any((crate, name) in names for name in calls(item.body) for crate in {item.crate} | tree.direct.get(item.crate, set()))}
        if not more:
            return found
        found.update(more)


# ---- 5. Facts that stand in three or more contracts, parameters that travel together


def fact_groups(tree, side):
    """Facts of contracts, by their words: a parameter by its type. `.now` and, of what is asked, `.old` are left out."""
    groups = defaultdict(dict)
    for item in tree.functions:
        kinds = {name: "‹" + listed(kind) + "›" for name, kind in item.params}
        for clause in getattr(item, side):
            for fact in facts_in(clause):
                groups[spelled(fact, kinds, side)].setdefault(id(item), item)
    return {fact: list(items.values()) for fact, items in groups.items() if len(items) > 2}


def facts_in(words):
    parts = split_at(words, "×")
    if len(parts) == 1 and words[:1] == ["("] and closing(words, 0) == len(words):
        return facts_in(words[1:-1])
    if len(parts) == 1:
        return [words[2:-1] if words[:2] == ["T", "("] and closing(words, 1) == len(words) else words]
    return [fact for part in parts for fact in facts_in(part)]


def spelled(words, kinds, side):
    made, at = [], 0
    while at < len(words):
        if words[at] == "." and words[at + 1:at + 2] and (words[at + 1] == "now" or (side == "requires" and words[at + 1] == "old")):
            at += 2
            continue
        made.append(kinds.get(words[at], words[at]) if at == 0 or words[at - 1] != "." else words[at])
        at += 1
    return re.sub(r" ?([.]) ?", r"\1", " ".join(made))


def facts(tree, side):
    held = defaultdict(list)
    items = {}
    for fact, group in fact_groups(tree, side).items():
        for item in group:
            held[id(item)].append(f"{fact} ({len(group)})")
            items[id(item)] = item
    for key, found in held.items():
        yield items[key], "; ".join(found)


def asked_facts(tree):
    """A function that asks for a fact which three or more functions ask for, of values of the same types."""
    return facts(tree, "requires")


def promised_facts(tree):
    """A function that promises a fact which three or more functions promise, of values of the same types."""
    return facts(tree, "ensures")


def parameter_groups(tree):
    """Each set of two or more parameters, by name and type without its borrows, that three or more functions take, and no larger set does that as many take."""
    taken = [(item, frozenset(f"{name}: {listed(kind)}" for name, kind in item.params if name != "self")) for item in tree.functions if not item.exported]
    wide = [params for _, params in taken if len(params) > 1]
    closed, fresh = set(), set(wide)
    while fresh:
        closed |= fresh
        fresh = {one & two for one in fresh for two in wide if len(one & two) > 1} - closed
    groups = {group: [item for item, params in taken if group <= params] for group in closed}
    return {group: items for group, items in groups.items() if len(items) > 2}


def travelling(tree):
    """A function with parameters that three or more functions take together (those for C left out); named is the largest such set, and how many take it."""
    largest = {}
    for group, items in parameter_groups(tree).items():
        for item in items:
            key = (len(group), len(items))
            if id(item) not in largest or key > largest[id(item)][0]:
                largest[id(item)] = (key, item, group)
    for (_, count), item, group in largest.values():
        yield item, f"{{{', '.join(sorted(group))}}} in {count}"


# ---- 6. Buffers with a length beside them, parallel arrays


def is_room(kind):
    """An array whose length is a constant by name."""
    return kind[:1] == ["["] and re.fullmatch(r"[A-Z][A-Z0-9_]*", kind[-2]) is not None


def arrays_answered(tree):
    """A function that answers an array of which only the front counts: its length is a constant by name, or its contract speaks of `take .. result`."""
    for item in tree.functions:
        front = any(re.search(r"take (?:\( [^()]* \)|[\w. ]+?) result\b", " ".join(clause)) for clause in item.ensures)
        if (item.result[:1] == ["["] and (is_room(item.result) or front)):
            yield item, "".join(item.result) + (", the front counts" if front else "")


def array_fields(tree):
    """A field that is an array whose length is a constant by name."""
    for struct in tree.structs:
        for name, kind in struct.fields:
            if is_room(kind):
                yield struct, f"{name}: {' '.join(kind)}"


def counts_beside(tree):
    """A case of an enum that holds how many elements count of an array that lies elsewhere."""
    for enum in tree.enums:
        for name, more in enum.fields:
            if "usize" in more:
                yield enum, name + "".join(more)


def local_buffers(tree):
    """A local array of which a part is lent: `let mut f = [0; MAX]`, then `&mut f[..n]`; or that is lent whole to be filled."""
    for item in tree.functions:
        found = []
        for i in range(len(item.body) - 4):
            if item.body[i] != "let" or item.body[i + 1] != "mut" or item.body[i + 3:i + 5] != ["=", "["]:
                continue
            name, inside = item.body[i + 2], item.body[i + 5:closing(item.body, i + 4) - 1]
            text = " ".join(item.body[i:])
            if ";" in inside and re.search(rf"& (?:mut )?{name}\b(?: \[ [^\]]*\.\.|(?! \[))", text):
                found.append(f"{name}: [{' '.join(inside)}]")
        if found:
            yield item, "; ".join(found)


def lengths_beside(tree):
    """A list with a place or a length beside it: the number indexes or cuts the list, is compared with its length, or is asked to lie within it."""
    for item in tree.functions:
        lists = [name for name, kind in item.params if is_slice(kind)]
        numbers = [name for name, kind in item.params if kind == ["usize"]]
        facts_of = [" ".join(fact) for clause in item.requires for fact in facts_in(clause)]
        text, found = " ".join(item.body), set()
        for name in lists:
            bounds = [fact for fact in facts_of if re.search(rf"length {name}\b", fact) and re.search("[<≤≡]", fact)]
            for number in numbers:
                used = rf"\b{name} \[ [^\[\]]*\b{number}\b|\b{number} (?:<|<=|==) {name} \. len|\b{name} \. len \( \) (?:<|<=|==) {number}\b"
                if re.search(used, text) or any(re.search(rf"\b{number}\b", fact) for fact in bounds):
                    found.add(f"{name} with {number}")
        if found:
            yield item, ", ".join(sorted(found))


def parallel_lists(tree):
    """Lists that are parallel: two array fields of one length in a struct, or two slices that are read and asked to have one length."""
    for struct in tree.structs:
        lengths = Counter(kind[-2] for _, kind in struct.fields if is_room(kind))
        for length, count in lengths.items():
            if count > 1:
                yield struct, f"{count} arrays of {length}"
    for item in tree.functions:
        read = [name for name, kind in item.params if is_slice(kind) and not is_written(kind)]
        ends = defaultdict(set)
        for clause in item.requires:
            for fact in facts_in(clause):
                found = re.fullmatch(r"length (\w+) \. now ≡ (.*)", " ".join(fact))
                if found and found[1] in read:
                    other = re.fullmatch(r"length (\w+) \. now", found[2])
                    ends[found[2] if not other else f"length {other[1]}"] |= {found[1]} | ({other[1]} if other and other[1] in read else set())
        for length, names in ends.items():
            if len(names) > 1:
                yield item, f"{', '.join(sorted(names))} of {length}"


def sets_by_hand(tree):
    """An array of flags in the place of a set, or a list that is searched or merged by an index of its own."""
    for item in tree.functions:
        text = " ".join(item.body)
        if re.search(r"= \[ false ;", text):
            yield item, "an array of flags"
            continue
        for _, _, head, body, _ in loops(item):
            moved = stepped(body)
            within = {name for _, block, _ in branches(body) for name in stepped(block)}
            if within and len(moved) > 1:
                yield item, "merges by " + ", ".join(sorted(within))


# ---- 7. Switches on which step to run


def number_switches(tree):
    """A `match` on a number with two or more numbers as patterns."""
    for item in tree.functions:
        for subject, arms in matches(item.body):
            numbers = [pattern[0] for pattern, _ in arms if is_literal(pattern[0])]
            if len(numbers) > 1:
                called = sum(bool(calls(body)) for _, body in arms)
                yield item, f"match {' '.join(subject)}: {len(arms)} arms, {called} call"


def case_switches(tree):
    """A `match` on an enum whose cases hold nothing, with calls in two or more arms."""
    for item in tree.functions:
        for subject, arms in matches(item.body):
            if sum("::" in pattern and "(" not in pattern for pattern, _ in arms) > 1 and sum(bool(calls(body)) for _, body in arms) > 1:
                yield item, f"match {' '.join(subject)}: {len(arms)} arms"


def tested_switches(tree):
    """An `if` that compares a number with a number or a constant, and calls one function where it holds and another where not."""
    for item in tree.functions:
        found, codes = [], {last_name(constant) for constant in tree.codes}
        for test, block, rest in branches(item.body):
            compared = len(split_at(test, "&&")) == 1 and any(word in ("<", "==", "!=", ">", "<=", ">=") for word in test) and (is_literal(test[-1]) or test[-1].isupper())
            ahead = calls(block) - {"len", "put"}
            other = calls(rest[:closing(rest, 1)] if rest[:1] == ["else"] and rest[1] == "{" else rest) - {"len", "put"}
            leaves = block[:1] == ["return"] or "return" in block or rest[:1] == ["else"] or not other
            if compared and ahead and leaves and ahead != other and not codes & set(block) and chooses(item, test, block):
                found.append(" ".join(test))
        if found:
            yield item, "; ".join(found)


def chooses(item, test, block):
    """The number compared is a parameter or a field of one, and the call stands for the whole answer."""
    names = {name for name, _ in item.params}
    last = split_at(block, ";")[-1]
    return test[0] in names and not {"Refused", "Err"} & set(last) and (last[0] == "return" and len(last) > 2 or block[-1] in (";", ")") or last[-1] == ")")


def step_twins(tree):
    """Functions of one shape that differ in what they call: one function that takes the step."""
    for group in equal_groups(tree):
        if calls_differ(group) and any(list(loops(item)) for item in group):
            for item in group:
                yield item, "with " + ", ".join(other.name for other in group if other is not item)


RULES = {
    1: (own_enums, flags_in_structs, flags_beside, numbered_constants, code_functions, code_tests, kinds_as_numbers, values_for_none),
    2: (equal_twins, named_twins, type_twins, constant_twins, near_twins),
    3: (counted_loops, other_loops),
    4: (plain_conversions, bytes_by_hand, bit_moves, cases_and_numbers, equalities, copies, short_fronts, printers, casting_arithmetic, comparisons),
    5: (asked_facts, promised_facts, travelling),
    6: (arrays_answered, array_fields, counts_beside, local_buffers, lengths_beside, parallel_lists, sets_by_hand),
    7: (number_switches, case_switches, tested_switches, step_twins),
}

# What these find is listed to be read, and not counted among a point's places.
LISTED = {near_twins, other_loops, casting_arithmetic, comparisons}


# ---- 8. Proofs


def proof_figures(crate):
    """Lines of proofs, files and lines of answers, names for goals, chains of `.before`, long lines."""
    files = sorted((REPOSITORY / "crates" / crate / "proofs").rglob("*.antt"))
    texts = {path: path.read_text() for path in files}
    answers = [text for path, text in texts.items() if path.name == "Answers.antt"]
    everything = "".join(texts.values())
    return {
        "lines": sum(text.count("\n") for text in texts.values()),
        "answer files": len(answers),
        "answer lines": sum(text.count("\n") for text in answers),
        "At-, As-": len(re.findall(r"^(?:abbrev |pub )*(?:At|As)-\S+ :", everything, re.MULTILINE)),
        ".before": len(re.findall(r"(?:\.before)+", everything)),
        ".before x2": len(re.findall(r"(?:\.before){2,}", everything)),
        "over 160": sum(len(line) > 160 for text in texts.values() for line in text.splitlines()),
    }


# ---- Printing


def places(tree, rule):
    """The places of a rule, each once, in the order of the files."""
    found = {}
    for item, note in rule(tree):
        found.setdefault((item.crate, item.file, item.line, item.name, note), None)
    return sorted(found)


def said(rule):
    return " ".join(rule.__doc__.split())


def chosen_rules(tree, options):
    """The rules that are asked for, each with its point, its number and its places."""
    for point, rules in RULES.items():
        for number, rule in enumerate(rules, 1):
            if (options.point in (None, point)) and options.rule in (None, f"{point}.{number}"):
                yield point, number, rule, places(tree, rule)


def print_rule(point, number, rule, found, with_places):
    listed = ", listed and not counted" if rule in LISTED else ""
    print(f"\n{point}.{number} {rule.__name__}: {len(found)}{listed} ({by_crate(found)})\n    {said(rule)}")
    for _, file, line, name, note in found if with_places else ():
        print(f"      {file}:{line} {name}: {note}")


def print_page(point, number, rule, found):
    """The places of a rule as a list of a page: by file, without lines."""
    files = defaultdict(dict)
    for _, file, _, name, note in found:
        files[file.removeprefix("crates/").replace("/src/", "/")].setdefault(name, []).append(note)
    print(f"\n**{point}.{number} {said(rule).split(':')[0].rstrip('.')}** ({len(found)}{', listed, not counted' if rule in LISTED else ''})\n")
    for file, names in files.items():
        print(f"- {file}: " + ", ".join(f"`{name}`" + (f" ({len(notes)})" if len(notes) > 1 else "") for name, notes in names.items()))


def by_crate(found):
    return ", ".join(f"{crate} {count}" for crate, count in sorted(Counter(place[0] for place in found).items())) or "none"


def print_groups(tree):
    for title, groups in (("asked by", fact_groups(tree, "requires")), ("promised by", fact_groups(tree, "ensures"))):
        print(f"\n  5: {len(groups)} facts {title} three or more functions")
        for fact, items in sorted(groups.items(), key=lambda pair: -len(pair[1])):
            print(f"        {len(items)}: {fact}")
    groups = parameter_groups(tree)
    print(f"\n  5: {len(groups)} sets of parameters that three or more functions take together")
    for group, items in sorted(groups.items(), key=lambda pair: (-len(pair[1]), -len(pair[0]))):
        print(f"        {len(items)}: {', '.join(sorted(group))}")


def print_table(columns):
    print("\nBy crate: places of each point, each once")
    print(f"  {'crate':18}" + "".join(f"{point:>6}" for point in columns))
    for crate in crates():
        print(f"  {crate:18}" + "".join(f"{columns[point][crate]:>6}" for point in columns))
    print(f"  {'all':18}" + "".join(f"{sum(columns[point].values()):>6}" for point in columns))


def print_proofs():
    print("\nPOINT 8")
    rows = {crate: proof_figures(crate) for crate in crates()}
    names = list(next(iter(rows.values())))
    print(f"  {'crate':18}" + "".join(f"{name:>14}" for name in names))
    for crate, row in rows.items():
        print(f"  {crate:18}" + "".join(f"{row[name]:>14}" for name in names))
    print(f"  {'all':18}" + "".join(f"{sum(row[name] for row in rows.values()):>14}" for name in names))


def main():
    parser = argparse.ArgumentParser(description=__doc__, formatter_class=argparse.RawTextHelpFormatter)
    parser.add_argument("--places", action="store_true")
    parser.add_argument("--page", action="store_true")
    parser.add_argument("--point", type=int, choices=range(1, 9))
    parser.add_argument("--rule")
    options = parser.parse_args()
    tree, columns = Tree(), defaultdict(set)
    for point, number, rule, found in chosen_rules(tree, options):
        columns[point] |= {place[:4] for place in found if rule not in LISTED}
        if options.page:
            print_page(point, number, rule, found)
        else:
            print_rule(point, number, rule, found, options.places or options.point or options.rule)
    if options.point == 5 or (options.places and not options.rule):
        print_groups(tree)
    if columns and not options.rule and not options.page:
        print_table({point: Counter(place[0] for place in found) for point, found in columns.items()})
    if options.point == 8 or not (options.point or options.rule or options.page):
        print_proofs()


if __name__ == "__main__":
    main()
