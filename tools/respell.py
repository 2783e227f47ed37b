#!/usr/bin/env python3
"""Brings the repository's own definitions and lemmas to today's spelling, once: types and facts in upper camel case, all else in snake case.

usage: python3 tools/respell.py [--dry]      at the top of the repository, after port.py and before any edit by hand

Names of src/ keep their spelling; where proofs cite a function, a clause or a variable of the source with dashes, they get its underscores.
Names of the library, and names that the check makes (goals and steps), keep their dashes between the parts.
With --dry it writes nothing and lists each new name, and those that would fall together.
"""
import collections
import glob
import re
import sys

W = r"[^\s(){}.;,@\"«»\[\]\\]+"
TOKEN = re.compile(r"--[^\n]*|\"(?:[^\"\\]|\\.)*\"|(?P<dot>\.?)(?P<name>" + W + r")")
HEAD = re.compile(r"^\s*(?:pub\s+)?(?:data|record|ruleset)\s+(" + W + r")")
SIGNATURE = re.compile(r"^\s*(?:(?:abbrev|unfoldable|pub|data|record|ruleset|module)\s+)*(" + W + r")(?:\s+[({][^)}]*[)}])*\s+:(?:\s|$)")
MADE = re.compile(r"^(After-.*|returns(-.*)?|loop-.*-(init|preserved|smaller)|.*-init|.*-preserved|.*-requires(-clause-.*)?|invariant-loop-.*|decreases-.*|invariant_of-.*|invariant-of-.*"
                  r"|overflow[-_].*|nonzero[-_].*|bounds-.*|(slice|offset)[-_]bounds-.*|ghost-.*|prove-.*)$")
OWN_WORDS = re.compile(
    r"(?<![^-])(overflow-(add|sub|mul|shl|shr|cast|step)|nonzero-(div|rem)|(offset|slice)-bounds|invariant-of"
    r"|type-inv|yielded-by|len-below|len-at-least|in-(default|ok|err)|call-mut)(?![^-])")
# Names that would fall together with another of the repository's, and one of an older library's word.
BY_HAND = {"getD-blank": "get_or_blank", "cone-count": "count_in_cone", "on-lattice": "on_the_lattice", "same_number": "equal_numbers"}

antt = sorted(glob.glob("crates/*/specs/**/*.antt", recursive=True) + glob.glob("crates/*/proofs/**/*.antt", recursive=True))
sources = sorted(glob.glob("crates/*/src/**/*.rt", recursive=True))


def read(path):
    with open(path, encoding="utf-8") as f:
        return f.read()


def without_comments(text):
    return re.sub(r"//[^\n]*|\"(?:[^\"\\]|\\.)*\"", " ", text)


def respelled(name):
    if name in BY_HAND:
        return BY_HAND[name]
    if re.match(r"[A-Z]", name):
        parts = [p for p in name.split("-") if p]
        return "".join(p[0].upper() + p[1:] for p in parts) if len(parts) > 1 else name
    name = re.sub(r"(?<=[a-z0-9])([A-Z])(?=[a-z])", lambda m: "_" + m.group(1).lower(), name)
    return name.replace("-", "_")


def library():
    names = set()
    for path in glob.glob("/opt/rattle/rattle/**/*.antt", recursive=True):
        names.update(re.findall(W, re.sub(r"--[^\n]*", "", read(path))))
    return names


def own_names():
    own = {}
    for path in antt:
        for line in read(path).splitlines():
            m = HEAD.match(line) or SIGNATURE.match(line)
            if m and not line.strip().startswith("--") and not MADE.match(m.group(1)):
                own.setdefault(m.group(1), set()).add(path)
    return own


def source_names():
    idents, clauses = set(), set()
    for path in sources:
        text = without_comments(read(path))
        idents.update(w for w in re.findall(r"[A-Za-z_]\w*", text) if "_" in w.strip("_"))
        clauses.update(re.findall(r"(?:requires|ensures|ghost)\*?\s+([a-z]\w*)\s*[{:=]", text))
    return idents, clauses


def joined_by_source(token, idents):
    """The parts of a made name, where neighbours that are one name of the source get its underscores."""
    parts, out, i = token.split("-"), [], 0
    while i < len(parts):
        for j in range(len(parts), i, -1):
            if j > i + 1 and "_".join(parts[i:j]) in idents:
                out.append("_".join(parts[i:j]))
                i = j
                break
        else:
            out.append(parts[i])
            i += 1
    return "-".join(out)


def main():
    dry = "--dry" in sys.argv
    lib, own = library(), own_names()
    idents, clauses = source_names()
    dashed_clauses = {c.replace("_", "-"): c for c in clauses if "_" in c}
    turn = {n: respelled(n) for n in own if respelled(n) != n and re.search(r"[a-zA-Z]", n)}
    for n in list(turn):
        if "·" in n or "◌" in n:
            del turn[n]

    def antt_token(m):
        if m.group("name") is None:
            return m.group(0)
        dot, t = m.group("dot"), m.group("name")
        if "◌" in t:
            return m.group(0)
        if t in turn and not (dot and t not in fields):
            return dot + turn[t]
        if t in dashed_clauses and t not in lib:
            return dot + dashed_clauses[t]
        if re.search(r"[a-z0-9]-[a-zA-Z0-9]", t) and (dot or MADE.match(t)):
            t = OWN_WORDS.sub(lambda w: w.group(0).replace("-", "_"), t)
            return dot + joined_by_source(t, idents)
        if re.search(r"[a-z]-[a-z]", t) and t not in lib and not MADE.match(t):
            locals_turned[t] += 1
            return dot + respelled(t)
        return m.group(0)

    # names that may stand behind a dot: fields of records, and modules that imports name
    fields = set(own)
    locals_turned = collections.Counter()
    changed = 0
    for path in antt:
        text = read(path)
        new = TOKEN.sub(antt_token, text)
        if new != text:
            changed += 1
            if not dry:
                with open(path, "w", encoding="utf-8") as f:
                    f.write(new)
    rt_token = re.compile(r"//[^\n]*|b?\"(?:[^\"\\]|\\.)*\"|" + W)
    for path in sources:
        text = read(path)
        new = rt_token.sub(lambda m: turn.get(m.group(0), m.group(0)), text)
        if new != text:
            changed += 1
            if not dry:
                with open(path, "w", encoding="utf-8") as f:
                    f.write(new)
    if dry:
        by_new = collections.defaultdict(set)
        for old, new in turn.items():
            by_new[new].add(old)
        for new in by_new:
            if new in own:
                by_new[new].add(new)
        for new, olds in sorted(by_new.items()):
            if len(olds) > 1:
                print("fall together:", new, {o: sorted(p.replace("crates/", "") for p in own[o]) for o in olds})
            if new in lib:
                print("the library has:", new, sorted(olds))
        types = set()
        for path in sources:
            types.update(re.findall(r"\b(?:struct|enum|trait|type|const|static)\s+(\w+)", without_comments(read(path))))
        for new in by_new:
            if new in types:
                print("the source has a type:", new, sorted(by_new[new]))
        print("locals:", dict(locals_turned))
    print(f"{len(turn)} names, {changed} files")


main()
