"""The names in docs/CLAIMS.md against the tree: each path is there, each must-fail edit too, and each other name stands in a file of the crates."""

import re

from building import REPOSITORY

CRATES = REPOSITORY / "crates"


def sources():
    return [path for kind in ("*.rt", "*.antt") for path in CRATES.rglob(kind) if path.relative_to(CRATES).parts[1] != "out"]


def words(files):
    found = set()
    for path in files:
        found.update(re.findall(r"[^\s(){}\[\];,.`:]+", path.read_text()))
    return found


def is_there(name, known, files):
    """A folder that a crate has, an edit as crate/name, a path of the repository or of the crates, or a name in a file."""
    if name.endswith("/"):
        return any((folder / name).is_dir() for folder in (REPOSITORY, *CRATES.iterdir()))
    if re.fullmatch(r"[a-z_0-9]+/[a-z_0-9]+", name) and (CRATES / name.replace("/", "/must-fail/")).with_suffix(".edit").exists():
        return True
    if "/" in name or name.endswith((".antt", ".rt")):
        return any((root / name).exists() for root in (REPOSITORY, CRATES)) or any(path.name == name for path in files)
    return name in known


def run():
    """True when every name is there."""
    files = sources()
    known = words(files) | {path.name for path in CRATES.iterdir()}
    names = {name for name in re.findall(r"`([^`\s]+)`", (REPOSITORY / "docs/CLAIMS.md").read_text()) if "*" not in name}
    missing = sorted(name for name in names if not is_there(re.sub(r"\(.*\)$", "", name), known, files))
    if missing:
        print("claims: docs/CLAIMS.md names what is not there: " + ", ".join(missing))
        return False
    print(f"claims: {len(names)} names of docs/CLAIMS.md are there")
    return bool(names)
