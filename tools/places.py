#!/usr/bin/env python3
# Lists the places in src/ that docs/DESIGN-PASS.md counts: `tools/places.py POINT [COMMIT]`, a line each and their number last.
# With a commit it reads the sources as they stood there.
import collections
import pathlib
import re
import subprocess
import sys

ROOT = pathlib.Path(__file__).resolve().parent.parent


def sources(commit):
    if commit is None:
        for path in sorted(ROOT.glob("crates/*/src/**/*.rt")):
            yield str(path.relative_to(ROOT)), path.read_text()
        return
    names = subprocess.run(
        ["git", "ls-tree", "-r", "--name-only", commit, "crates"],
        cwd=ROOT, capture_output=True, text=True, check=True).stdout.split()
    for name in sorted(names):
        if "/src/" in name and name.endswith(".rt"):
            yield name, subprocess.run(
                ["git", "show", f"{commit}:{name}"],
                cwd=ROOT, capture_output=True, text=True, check=True).stdout


# Lines of the older form, by point.
PATTERNS = {
    # A refusal that is handed back in an Option; Option and Result taken apart by hand; the two cases of Option and Result as cases of
    # an enum of the repository's own; a number and a flag as a pair; numbers for kinds.
    "1": [
        r"-> Option<Fault>",
        r"^ *(Some|Ok)\(.*\) => (return )?(Ok|Some)\(",
        r"^ *(None|Err\([a-z_]+\)) => (return )?(Err\(|None,)",
        r"return Err\((fault|trouble_at)",
        r"None => unreachable",
        r"^    (Pending|Declined\(|Memory)",
        r"-> .*\((i32, bool|u32, u32)\)",
        r"fn (number|code|place)\(&?self\) -> (u8|usize)",
    ],
    # Loops whose index or count is kept by hand.
    "3": [
        r"^ *while ",
        r"^ *for (i|k|index) in [a-z0-9_.]+\.\.",
        r"^ *(count|line|place|number|level|n|i|at) (\+= 1|\+= 2|= [a-z]+\.(saturating_add|wrapping_add)\(1\))",
    ],
    # Conversion and printing by hand.
    "4": [
        r"fn (words|code|number|eq|cmp|clone|fmt|from|to_cell|(two|four)_bytes|[a-z]+_text|[a-z]+_line|[a-z]+_numbers)\(",
        r"(rows|columns): [a-z.]+ as u16",
    ],
    # A buffer with a length or a place beside it; arrays of a fixed length that are filled in part.
    "6": [
        r"\bat: usize",
        r"\[0u?[0-9]*; [A-Z0-9]+\]",
        r"= \[(BLANK|Cell::BLANK|false|0u8|0u16); [A-Z0-9]+\]",
    ],
    # A choice among steps.
    "7": [
        r"\bmatch (self|name|kernel|way) \{",
    ],
}


def by_pattern(point, commit):
    patterns = [re.compile(p) for p in PATTERNS[point]]
    for name, text in sources(commit):
        for number, line in enumerate(text.split("\n"), 1):
            if not line.lstrip().startswith("//") and any(p.search(line) for p in patterns):
                yield f"{name}:{number}: {line.strip()}"


def functions(text):
    # Name, signature with contract, and body of each function that has one.
    lines = text.split("\n")
    for at, line in enumerate(lines):
        match = re.match(r"^( *)(?:pub(?:\([a-z]+\))? )?(?:extern \"C\" )?fn ([a-z_0-9]+)", line)
        if not match:
            continue
        indent = match.group(1)
        head = at
        while not lines[head].endswith("{") and not lines[head].endswith("{}") and not lines[head].endswith(";"):
            head += 1
        if not lines[head].endswith("{"):
            continue
        end = head
        while lines[end] != indent + "}":
            end += 1
        yield match.group(2), "\n".join(lines[at:head + 1]), "\n".join(lines[head + 1:end])


# Twins: functions of four lines or more whose bodies are alike but for names, numbers and strings.
def twins(commit):
    shapes = collections.defaultdict(list)
    for name, text in sources(commit):
        for function, _, body in functions(text):
            tokens = re.findall(r"\"[^\"]*\"|[A-Za-z_][A-Za-z_0-9]*|[0-9]+|[^\sA-Za-z0-9_]", re.sub(r"//.*", "", body))
            words = {"if", "else", "match", "for", "in", "let", "mut", "return", "Some", "None", "Ok", "Err", "while", "as"}
            shape = " ".join(t if t in words or not re.match(r"[\"A-Za-z_0-9]", t) else "_" for t in tokens)
            if len(tokens) >= 24:
                shapes[shape].append(f"{name}: {function}")
    for places in shapes.values():
        if len(places) > 1:
            yield " ~ ".join(places)
    constants = collections.defaultdict(list)
    for name, text in sources(commit):
        for match in re.finditer(r"const ([A-Z_]+): ([^=;]+)=([^;]*);", text):
            constants[re.sub(r"\s", "", match.group(2) + match.group(3))].append(f"{name}: {match.group(1)}")
        for match in re.finditer(r"Cell \{\s*number: 0,\s*bit: false,?\s*\}", text):
            constants["blank cell"].append(f"{name}: a blank cell")
    for places in constants.values():
        if len(places) > 1:
            yield " ~ ".join(places)


# A fact required in three or more contracts of a crate, and two parameters that stand together in five or more signatures of a crate.
def repeated(commit):
    facts = collections.defaultdict(list)
    pairs = collections.defaultdict(list)
    for name, text in sources(commit):
        crate = name.split("/")[1]
        for function, head, _ in functions(text):
            for fact in re.findall(r"requires (?:[a-z_]+ )?\{ (.*) \}", head):
                facts[crate, re.sub(r"\.(old|now|new)", "", fact)].append(function)
            listed = re.search(r"\(([^)]*)\)", head)
            parameters = sorted(set(re.findall(r"([a-z_]+): (?!&mut &)", listed.group(1)))) if listed else []
            for i, a in enumerate(parameters):
                for b in parameters[i + 1:]:
                    pairs[crate, f"{a}, {b}"].append(function)
    for (crate, fact), places in facts.items():
        if len(places) >= 3:
            yield f"{crate}: {fact}: {', '.join(places)}"
    for (crate, pair), places in pairs.items():
        if len(places) >= 5 and not crate.endswith("_tests"):
            yield f"{crate}: {pair}: {', '.join(places)}"


def main():
    point = sys.argv[1]
    commit = sys.argv[2] if len(sys.argv) > 2 else None
    if point == "2":
        lines = list(twins(commit))
    elif point == "5":
        lines = list(repeated(commit))
    else:
        lines = list(by_pattern(point, commit))
    for line in lines:
        print(line)
    print(len(lines))


main()
