#!/usr/bin/env python3
# Lists each crate's public functions with the definitions of specs/ that their `ensures` cite; a star marks one with a `requires`.
import re
import sys
from pathlib import Path

CRATE = Path(__file__).resolve().parent.parent / "crates"
FUNCTION = re.compile(r"^impl (\w+)|^\}|^( *)pub fn (\w+)(.*?)(?:\n\2\{\n| \{\n)", re.S | re.M)
CLAUSE = re.compile(r"\b(requires|ensures)\b[^{]*\{")


def closed(text, start):
    """The text from start to the brace that closes it."""
    depth = 1
    for at in range(start, len(text)):
        depth += {"{": 1, "}": -1}.get(text[at], 0)
        if not depth:
            return text[start:at]
    return text[start:]


def cited(text, names):
    """The names of definitions in the text, in order, each once; what stands behind a dot is a part of a value."""
    return list(dict.fromkeys(w for w in re.findall(r"(?<![^\s(){},;])[^\s(){},;.]+", text) if w in names))


def functions(source):
    """(name, requires, ensures) of each public function; a method has its type's name in front."""
    found, owner = [], ""
    for m in FUNCTION.finditer(source):
        if m.group(1):
            owner = m.group(1) + "::"
        elif m.group(3) is None:
            owner = ""
        else:
            clauses = {"requires": "", "ensures": ""}
            for clause in CLAUSE.finditer(m.group(4)):
                clauses[clause.group(1)] += closed(m.group(4), clause.end())
            found.append((owner + m.group(3), bool(clauses["requires"]), clauses["ensures"]))
    return found


def rows():
    for crate in sorted(p for p in CRATE.iterdir() if (p / "src" / "lib.rt").exists()):
        entries = []
        for path in sorted((crate / "src").glob("*.rt")):
            source = path.read_text()
            imports = re.findall(r"ghost use Rattle\.(\w+)\.specs\.[^{;]*\{([^}]*)\}", source)
            names = {n.strip() for of, group in imports if (CRATE / of).is_dir() for n in group.split(",")} | {"replicate", "take", "drop"}
            for name, asks, ensures in functions(source):
                names_cited = ", ".join(f"`{n}`" for n in cited(ensures, names)) or ("its arguments" if "≡" in ensures else "none")
                entries.append(f"`{path.stem}::{name}`{'*' if asks else ''}: {names_cited}")
        if entries:
            yield f"| `{crate.name}` | " + "; ".join(entries) + " |"


if __name__ == "__main__":
    sys.stdout.write("\n".join(rows()) + "\n")
