#!/bin/sh
# Builds the static library of the proved transforms and times it against plain C.
set -e
cd "$(dirname "$0")/.."
top=$PWD
(cd crates/bench_lifting_c && rt lib > "${TMPDIR:-/tmp}/bench-lifting-build.log" 2>&1) || {
    tail -n 20 "${TMPDIR:-/tmp}/bench-lifting-build.log" >&2
    exit 1
}
mkdir -p target/staticlib
cp crates/bench_lifting_c/out/libbench_lifting_c.a target/staticlib/libbench_lifting.a
cc -O3 -o target/bench_lifting bench/lifting.c target/staticlib/libbench_lifting.a
"$top/target/bench_lifting" "$@"
