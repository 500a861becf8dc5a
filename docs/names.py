#!/usr/bin/env python3
# Looks up every name in backquotes of README.md and docs/: each must stand in the tree, `a::b` and `A.b` in a file of
# that name or that declares that type, `crate/edit` among the must-fail edits. Prints what does not; for every landing.
# CHECK-TIMES.md, PORT.md, DESIGN-PASS.md and LOOK-BACK.md are left out: they name crates, goals and types as they were.
import re
import sys
from pathlib import Path

ROOT = Path(__file__).resolve().parent.parent
WORD = re.compile(r"[^\W\d](?:[\w']|[-](?=\w))*")
QUALIFIED = re.compile(r"(%s)(::|\.)(%s)" % (WORD.pattern, WORD.pattern))
# Words of commands, of the kit and of other papers; endings of files.
KNOWN = set("bash rt check list-axioms ci dev doc version run git clone kit txt md py NAME README papers scope tools "
            "rattle-kit-13f logic dac8208d650f15bf cd put_ list1245 list1343 bank1238 client1215 session807 damaged807 EBICS_POSTPROCESS_DONE".split())
ENDINGS = {"rt", "antt", "edit", "md", "txt", "py"}


def pages():
    yield ROOT / "README.md"
    yield from (p for p in sorted((ROOT / "docs").glob("*.md")) if p.name not in ("CHECK-TIMES.md", "PORT.md", "DESIGN-PASS.md", "LOOK-BACK.md"))


def written(top):
    """The files and folders under crates/ but what rt makes (out/)."""
    for path in sorted(top.iterdir()):
        if path.name != "out":
            yield path
            if path.is_dir() and not path.is_symlink():
                yield from written(path)


class Tree:
    """The names of the tree: of all its files, by file, and by the type that a file declares."""

    def __init__(self):
        self.names, self.by_stem, self.by_type, self.edits = set(KNOWN), {}, {}, set()
        for path in written(ROOT / "crates"):
            self.names.update(WORD.findall(path.name))
            if path.suffix == ".edit":
                self.edits.add(f"{path.parent.parent.name}/{path.stem}")
            if path.suffix in (".rt", ".antt"):
                text = path.read_text()
                words = set(WORD.findall(text))
                self.names |= words
                for stem in {path.stem, *path.relative_to(ROOT / "crates").parts[:-1], *re.findall(r" as (\w+);?$", text, re.M)}:
                    self.by_stem.setdefault(stem, set()).update(words)
                for kind in re.findall(r"^(?:pub )?(?:record|data|struct|enum|impl) (\w+)", text, re.M):
                    self.by_type.setdefault(kind, set()).update(words)
        for path in list((ROOT / "docs").rglob("*")) + list((ROOT / ".ci").iterdir()) + [ROOT / "crates.txt"]:
            self.names.update(WORD.findall(path.name))

    def missing(self, quoted):
        """The names in one quotation that do not stand where it says."""
        edit = re.fullmatch(r"(\w+)/(\w+)", quoted)
        if edit and (ROOT / "crates" / edit.group(1)).is_dir() and quoted not in self.edits:
            if not (ROOT / "crates" / quoted).exists():
                yield quoted
        for place, mark, name in QUALIFIED.findall(quoted):
            if place == "Rattle" or (mark == "." and place[0].islower() and place not in self.by_stem):
                continue  # a path from the top; a part of a value
            there = self.by_stem.get(place, set()) | self.by_type.get(place, set())
            if name not in ENDINGS and place in self.names and name in self.names and name not in there:
                yield f"{name} in {place}"
        yield from (name for name in WORD.findall(quoted) if name not in self.names)


def rows(tree):
    for page in pages():
        fenced = False
        for number, line in enumerate(page.read_text().split("\n"), 1):
            fenced ^= line.startswith("```")
            if not fenced and not line.startswith("    "):
                for quoted in re.findall(r"`([^`]+)`", line):
                    for name in dict.fromkeys(tree.missing(quoted)):
                        yield f"{page.relative_to(ROOT)}:{number}: `{quoted}`: {name}"


if __name__ == "__main__":
    found = list(rows(Tree()))
    print("\n".join(found + [f"{len(found)} names not found"]))
    sys.exit(1 if found else 0)
