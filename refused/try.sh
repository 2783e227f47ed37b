#!/usr/bin/env bash
# Applies each edit of this folder to a copy of the repository and shows that the type checker refuses it.
set -euo pipefail
here=$(cd "$(dirname "$0")" && pwd)
copy=$(mktemp -d)
trap 'rm -rf "$copy"' EXIT
accepted=0
for edit in "$here"/*.edit; do
    rm -rf "$copy/repo"
    mkdir "$copy/repo"
    # what was proved already on this machine need not be proved again: rt begins with it
    tar -C "$here/.." --exclude=out -c crates crates.txt | tar -x -C "$copy/repo"
    crate=$(sed -n 's/^crate: //p' "$edit")
    python3 - "$edit" "$copy/repo/crates/$crate" <<'PY'
import sys
lines = open(sys.argv[1]).read().split("\n")
of = lambda word: next(l[len(word):] for l in lines if l.startswith(word))
path = sys.argv[2] + "/" + of("file: ")
text = open(path).read()
assert text.count(of("old: ")) == 1, "the old text does not stand once"
open(path, "w").write(text.replace(of("old: "), of("new: ")))
PY
    # a crate of examples has them in its tests, which a plain check leaves out
    tests=
    case $crate in *_tests) tests=--test ;; esac
    if out=$(cd "$copy/repo/crates/$crate" && rt check $tests 2>&1); then
        echo "$(basename "$edit"): ACCEPTED"
        accepted=1
    else
        echo "$(basename "$edit"): $(grep -m 1 -o 'error\[[a-z-]*\].*' <<<"$out" | cut -c1-160)"
    fi
done
exit $accepted
