"""The C headers against the functions that the crates export: names, order and types of the arguments, and results; and the refusal numbers and the
rules by name. No compiler sees both sides. Then what include/passign.h gives a compiler: the sizes and limits, held to the reference, and the texts of the
refusals; it compiles alone as C99, C11, C++11 and C++17."""

import re
import subprocess
from pathlib import Path
from tempfile import TemporaryDirectory

from building import REPOSITORY, run as build
from reference import encodings, library
from reference.parameters import SETS

HEADERS = {"include/passign.h": "passign_c", "bench/harness.h": "harness"}
STANDARDS = {"c99": "cc", "c11": "cc", "c++11": "c++", "c++17": "c++"}
WARNINGS = ("-Wall", "-Wextra", "-Wpedantic", "-Werror", f"-I{REPOSITORY}/include")

# By name without PASSIGN_: what each set has, in the order of the header's table, the largest of these, and other numbers.
OF_A_SET = {"N": lambda s: s.N, "Q": lambda s: s.q, "G": lambda s: s.g, "K": lambda s: s.k, "B": lambda s: s.b, "T": lambda s: s.t,
            "SECRET_KEY_SIZE": encodings.secret_key_length, "PUBLIC_KEY_SIZE": encodings.public_key_length, "SIGNATURE_SIZE": encodings.signature_length}
LARGEST = {"N_MAX": "N", "B_MAX": "B", "T_MAX": "T", "SECRET_KEY_MAX": "SECRET_KEY_SIZE", "PUBLIC_KEY_MAX": "PUBLIC_KEY_SIZE", "SIGNATURE_MAX": "SIGNATURE_SIZE"}
NUMBERS = {"SETS": len(SETS), "MESSAGE_MAX": library.MOST_MESSAGE_BYTES, "MASKS_MAX": library.MOST_MASKS, "STACK": 128 * 1024,
           "YES": library.YES, "NO": library.NO, "SIGNED": library.SIGNED, "DONE": library.DONE,
           **{name: max(map(OF_A_SET[size], SETS)) for name, size in LARGEST.items()}}
NO_SETS = (5, 255)
NOT_A_REFUSAL = "no refusal of this library: 0, and 256 and more, are answers; for any other number header and archive do not fit"
ELEMENTS = {"u8": "uint8_t", "i8": "int8_t", "u16": "uint16_t", "i16": "int16_t", "u32": "uint32_t", "i32": "int32_t", "usize": "size_t"}


def without_comments(text):
    return re.sub(r"/\*.*?\*/|//[^\n]*|^\s*#[^\n]*", "", text, flags=re.DOTALL | re.MULTILINE)


def declared(header):
    """Each function of a header: its result, and the type and name of each argument."""
    functions = {}
    for result, name, arguments in re.findall(r"(\w+) (\w+)\(([^)]*)\);", without_comments(header)):
        functions[name] = result, [re.fullmatch(r"(.*?)(\w+)", " ".join(argument.split())).groups() for argument in arguments.split(",")]
    return functions


def in_c(name, kind):
    """A parameter as C has it: a slice is a pointer and its length, an array a pointer."""
    lent = re.fullmatch(r"&(mut )?\[(\w+)(; \d+)?\]", kind)
    if not lent:
        return [(f"{ELEMENTS[kind]} ", name)]
    mutable, element, sized = lent.groups()
    return [(f"{'' if mutable else 'const '}{ELEMENTS[element]} *", name)] + ([] if sized else [("size_t ", f"{name}_length")])


def exported(code):
    """Each exported function of a crate's source, as C has it."""
    functions = {}
    for name, parameters, result in re.findall(r'pub extern "C" fn (\w+)\(([^)]*)\)(?: -> (\w+))?', without_comments(code)):
        pairs = [[part.strip() for part in parameter.split(":", 1)] for parameter in parameters.split(",") if parameter.strip()]
        functions[name] = ELEMENTS[result] if result else "void", [argument for pair in pairs for argument in in_c(*pair)]
    return functions


def in_capitals(name):
    """A name of the definitions or a case of an enum, as C has it."""
    return re.sub(r"(?<!^)[A-Z]", lambda letter: "_" + letter.group(), name).upper()


# a case of an enum with its number
CASE = r"^    (\w+) = (\d+),$"


def numbers_in(path, pattern):
    return dict(re.findall(pattern, (REPOSITORY / path).read_text(), re.MULTILINE))


def agree(what, definitions, code, in_header):
    """Whether these numbers by name are those of the code, and those of the header, which has so many of them, too."""
    header = {name: number for name, number in numbers_in("include/passign.h", r"#define PASSIGN_(\w+) (\d+)").items() if name in code}
    if definitions == code and len(header) == in_header and all(code[name] == number for name, number in header.items()):
        return True
    print(f"headers: DIFFERENCE in {what}: definitions {definitions}, code {code}, header {header}")
    return False


def refusals_agree():
    """The header has those of the library."""
    definitions = numbers_in("crates/refusal/specs/Numbers.antt", r"^(\w+) = (\d+)$")
    code = numbers_in("crates/refusal/src/lib.rt", CASE)
    return agree("refusal numbers", *({in_capitals(name): number for name, number in found.items()} for found in (definitions, code)), 10)


def rules_agree():
    """low_byte_rule of the definitions is LowByte of the code and RULE_LOW_BYTE of the header, three_byte_rule is ThreeBytes and RULE_THREE_BYTES."""
    definitions = numbers_in("crates/challenge/specs/Pool.antt", r"^(\w+)_rule = (\d+)$")
    code = numbers_in("crates/challenge/src/lib.rt", CASE)
    names = {"low_byte": "RULE_LOW_BYTE", "three_byte": "RULE_THREE_BYTES"}
    named = {names.get(name, name): number for name, number in definitions.items()}
    return agree("rules", named, {"RULE_" + in_capitals(name): number for name, number in code.items()}, 2)


# ── What the header gives a compiler ────────────────────────────────────────────────────────────

def printed(declarations, statements):
    """The lines that a small program over the header prints."""
    text = f'#include "passign.h"\n#include <stdio.h>\n{declarations}\nint main(void)\n{{\n{statements}\n    return 0;\n}}\n'
    with TemporaryDirectory() as folder:
        source, program = Path(folder) / "source.c", Path(folder) / "program"
        source.write_text(text)
        build("cc", "-std=c99", *WARNINGS, source, "-o", program)
        return subprocess.run([program], stdout=subprocess.PIPE, text=True, check=True).stdout.splitlines()


def numbers_given():
    """Each number by its name, and by the set where it has one: as the length of an array outside functions, and as worked out when the program runs."""
    arrays = [(f"{name} {s.number}", f"PASSIGN_{name}({s.number})") for name in OF_A_SET for s in SETS]
    arrays += [(name, f"PASSIGN_{name}") for name, number in NUMBERS.items() if number]
    declared_arrays = "\n".join(f"static char array{at}[{text}];" for at, (_, text) in enumerate(arrays))
    print_arrays = "\n".join(f'    printf("{name} %lu\\n", (unsigned long)sizeof array{at});' for at, (name, _) in enumerate(arrays))
    print_others = "\n".join(f'    printf("{name} %ld\\n", (long)PASSIGN_{name});' for name in NUMBERS)
    sets = ", ".join(map(str, (*range(len(SETS)), *NO_SETS)))
    by_set = "\n".join(f'        printf("{name} %d %ld\\n", sets[i], (long)PASSIGN_{name}(sets[i]));' for name in OF_A_SET)
    loop = f"    for (size_t i = 0; i < sizeof sets; i++) {{\n{by_set}\n    }}"
    return printed(f"{declared_arrays}\nstatic uint8_t sets[] = {{{sets}}};", f"{print_arrays}\n{print_others}\n{loop}")


def numbers_agree():
    wanted = {f"{name} {s.number}": of(s) for name, of in OF_A_SET.items() for s in SETS}
    wanted.update({f"{name} {number}": 0 for name in OF_A_SET for number in NO_SETS}, **NUMBERS)
    for name, number in (line.rsplit(" ", 1) for line in numbers_given()):
        if int(number) != wanted[name]:
            print(f"headers: DIFFERENCE in PASSIGN_{name}: {number}, reference {wanted[name]}")
            return False
    return table_agrees()


def table_agrees():
    """The table in the header's comment."""
    rows = re.findall(r"^     (\d(?: +\d+){9})\b", (REPOSITORY / "include/passign.h").read_text(), re.MULTILINE)
    wanted = [[s.number, *(of(s) for of in OF_A_SET.values())] for s in SETS]
    if [list(map(int, row.split())) for row in rows] == wanted:
        return True
    print(f"headers: DIFFERENCE in the table of include/passign.h: {rows}, reference {wanted}")
    return False


def refusal_texts():
    """What passign_refusal_text says, by number, of the numbers that it knows."""
    lines = printed("", '    for (uint32_t refusal = 0; refusal <= 300; refusal++)\n        puts(passign_refusal_text(refusal));')
    return {number: text for number, text in enumerate(lines) if text != NOT_A_REFUSAL}


def texts_agree():
    """The numbers that the header names have a text, which says what is wrong and what to do, and no other number has."""
    named = {int(number) for number in re.findall(r"#define PASSIGN_(?:WRONG_\w+|NONE_PASSES|POOL_SPENT) (\d+)", (REPOSITORY / "include/passign.h").read_text())}
    texts = refusal_texts()
    no_remedy = [number for number, text in texts.items() if not re.fullmatch(".+: .+", text)]
    if set(texts) == named and len(set(texts.values())) == 10 and not no_remedy:
        return True
    print(f"headers: DIFFERENCE in passign_refusal_text: it has texts for {sorted(texts)}, without what to do for {no_remedy}; the header names {sorted(named)}")
    return False


def compile_alone():
    """Twice in one unit, as C and as C++; ends the tests where it does not compile."""
    for standard, compiler in STANDARDS.items():
        with TemporaryDirectory() as folder:
            source = Path(folder) / ("unit.c" if compiler == "cc" else "unit.cpp")
            source.write_text('#include "passign.h"\n#include "passign.h"\n')
            build(compiler, f"-std={standard}", *WARNINGS, "-fsyntax-only", source)


def run():
    """True when all agree."""
    compile_alone()
    if not refusals_agree() or not rules_agree() or not numbers_agree() or not texts_agree():
        return False
    count = 0
    for header, crate in HEADERS.items():
        found = declared((REPOSITORY / header).read_text())
        code = "".join(path.read_text() for path in sorted((REPOSITORY / "crates" / crate / "src").glob("*.rt")))
        wanted = exported(code)
        for name in sorted(set(found) | set(wanted)):
            if found.get(name) != wanted.get(name):
                print(f"headers: DIFFERENCE in {name}: {header} declares {found.get(name)}, crate {crate} exports {wanted.get(name)}")
                return False
        count += len(wanted)
    print(f"headers: {count} declarations are those of the crates; include/passign.h has the numbers of the reference and ten texts, as {', '.join(STANDARDS)}")
    return count > 0
