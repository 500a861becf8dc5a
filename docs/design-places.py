"""The places of docs/DESIGN-PASS.md, counted over crates/*/src: `python3 docs/design-places.py` at the top; with a word
(`enums`, `nones`, `numbers`, `flags`, `twins`, `loops`, `arms`, `fields`, `larger`, `clauses`, `together`, `beside`,
`parallel`, `which`, `answers`) it lists the places of that row."""
import collections
import glob
import re
import sys

FILES = {path: open(path).read() for path in sorted(glob.glob("crates/*/src/*.rt"))}


def lines(pattern):
    found = []
    for path, text in FILES.items():
        for number, line in enumerate(text.split("\n"), 1):
            if re.search(pattern, line):
                found.append(f"{path[7:]}:{number}: {line.strip()}")
    return found


def functions():
    """Each function as its place, its name, its parameters, its clauses and its body."""
    for path, text in FILES.items():
        for m in re.finditer(r"^( *)(?:pub |pub\(crate\) )?fn (\w+)(?:<[^>]*>)?\(", text, re.M):
            end = re.compile(r"^" + m.group(1) + r"\}", re.M).search(text, m.end())
            whole = text[m.end() : end.start() if end else len(text)]
            level, at = 1, 0
            while level and at < len(whole):
                level += {"(": 1, ")": -1}.get(whole[at], 0)
                at += 1
            head = re.search(r"^ *\{$", whole, re.M)
            cut = head.start() if head else at
            yield f"{path[7:]}:{text.count(chr(10), 0, m.start()) + 1}", m.group(2), whole[: at - 1], whole[at:cut], whole[cut:]


def parameters(text):
    return [re.sub(r"\s+", " ", it).strip() for it in re.split(r",\s*(?![^\[(<]*[\])>])", text) if ":" in it]


def enums():
    """Enums that are Option or Result under another name: one variant with a value or none, the others without."""
    found = []
    for path, text in FILES.items():
        for m in re.finditer(r"^ *(?:pub )?enum (\w+) \{\n(.*?)\n *\}", text, re.M | re.S):
            variants = re.findall(r"^ +(\w+)(\([^)]*\))?,", m.group(2), re.M)
            names = {it for it, _ in variants}
            refusals = names & {"Refused", "WrongLength", "TooLate", "SeedZero", "NotAdmitted", "Lengths", "Refuse"}
            if refusals and len(names) > len(refusals) or names & {"Accept"} or names & {"Done"} and len(names) > 2:
                found.append(f"{path[7:]}: {m.group(1)} {{ {', '.join(a + b for a, b in variants)} }}")
    return found


def nones():
    """Numbers that stand for none, as the comment or the body says."""
    return lines(r"^ *// .*(where there is none|where there are none|[;,] 0 where|over the limit where|0 for none|the number of places where)")


def numbers():
    """Constants that number kinds or refusals; places, sizes and limits are none."""
    found = lines(r"^(pub |pub\(crate\) )?const [A-Z][A-Z0-9_]*: (u64|usize|u8) = (\d|1\d|b'.');")
    others = r"layout\.rt|_AT:|BYTES:|COUNT:|WIDTH:|SIZE:|MAX_|LIMIT:|(SHARED|SURE)_OPEN|IDLE_OTHERS|DIGITS:|VALUES:|MOVES|FIRST_OF"
    return [it for it in found if not re.search(others, it)]


def flags():
    return lines(r"^ +(pub )?\w+: bool,$|^ +\w+\([^)]*, bool\),$")


def twins():
    """Functions of one crate whose bodies are the same but for names, numbers and texts: each beyond the first."""
    seen, found = collections.defaultdict(list), []
    for place, name, _, _, body in functions():
        shape = re.sub(r"\s+", "", re.sub(r"\b[A-Za-z_]\w*\b|\d+|\"[^\"]*\"", "x", body))
        if len(body.strip().split("\n")) > 4:
            seen[place.split("/")[0], shape].append(f"{place}: {name}")
    for its in seen.values():
        found += [f"{it} ~ {its[0]}" for it in its[1:]]
    return found


def loops():
    return lines(r"^ *(?:'\w+: )?(while |loop \{)")


def arms():
    return lines(r"=> (true|false),$")


def fields():
    """Structs built again from the fields of another: `name: x.name`, three or more in a function, or a `let` for a field
    that a `match` then reads."""
    found = []
    for place, name, _, _, body in functions():
        again = re.findall(r"^ +(\w+): \w+\.\1,$", body, re.M)
        if len(again) >= 3:
            found.append(f"{place}: {name}, {len(again)} fields")
        found += [f"{place}: {name}, {it}" for it in re.findall(r"let (\w+) = \w+(?:\.\w+)*\.\1;\n(?:.*\n)*? +match \1 \{", body)]
    return found


def larger():
    return [f"{place}: {name}" for place, name, *_ in functions() if re.fullmatch(r"larger|greater|smaller|greater_byte|least|less|same|wide|in_range|both|one_if", name)]


def clauses():
    """Facts asked for in three or more functions, each function beyond the second."""
    seen = collections.defaultdict(list)
    for place, name, _, clause, _ in functions():
        for asked in re.findall(r"requires(?: \w+)? \{(.*?)\n?\}(?=\s|$)", clause, re.S):
            for fact in re.split(r"\s×\s", re.sub(r"\s+", " ", asked).strip()):
                seen[fact.strip("() ")].append(f"{place}: {name}")
    return [f"{len(its)} × {fact}" for fact, its in sorted(seen.items(), key=lambda it: -len(it[1])) if len(its) >= 3]


def together():
    """Four parameters that stand together, in order, in three or more functions of one crate."""
    seen = collections.defaultdict(set)
    for place, name, given, *_ in functions():
        its = parameters(given)
        for at in range(len(its) - 3):
            seen[place.split("/")[0], tuple(its[at : at + 4])].add(f"{place}: {name}")
    return [f"{len(its)} × {key[0]}: {', '.join(key[1])}" for key, its in sorted(seen.items(), key=lambda it: -len(it[1])) if len(its) >= 3]


def beside():
    """A buffer with a place in it beside: parameters `x: &mut [u8], at: usize`, and arrays with their count in one struct."""
    its = [f"{place}: {name}" for place, name, given, *_ in functions() if re.search(r"\w+: &mut \[u8\],\s*\w+: usize", given)]
    return its + lines(r"^ +pub count: u64,$|^ +count: usize,$")


def parallel():
    return lines(r"^ +(pub )?(high|low): (\[u64; \w+\]|u64),$|, high: u64, low: u64")


def which():
    return [f"{place}: {name}" for place, name, given, _, body in functions() if re.search(r"\b(which|t|kind|table|letter): \w+", given) and "match " in body]


def answers():
    return sorted(glob.glob("crates/*/proofs/**/Answers.antt", recursive=True)) + sorted(glob.glob("crates/*/proofs/**/Proof.antt", recursive=True))


ROWS = [enums, nones, numbers, flags, twins, loops, arms, fields, larger, clauses, together, beside, parallel, which, answers]
for row in ROWS:
    if len(sys.argv) > 1 and row.__name__ == sys.argv[1]:
        print("\n".join(row()))
    elif len(sys.argv) == 1:
        print(f"{row.__name__:9} {len(row())}")
