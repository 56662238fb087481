#!/usr/bin/env bash
# Fuzzes the library for C by coverage: libFuzzer counts the edges inside the proved code, and compares.
#
# usage: run.sh [SECONDS]
#
# It fuzzes for SECONDS, or an hour, on two processors. It begins with the corpus of tests/library/fuzz, which the gate
# replays, and writes the smallest corpus that reaches the same edges back. It prints how many edges the inputs reached
# before and reach now. Needs clang and libclang-rt-14-dev. The code is that of `rt lib`, compiled with counters by a
# `clang` that passes its words and three flags more to the kit's.
set -euo pipefail
seconds=${1:-3600}
here=$(cd "$(dirname "$0")" && pwd)
top=$(cd "$here/../.." && pwd)
data=$top/tests/library/fuzz
crate=$top/crates/store_c
kit=$(dirname "$(rt doc | head -n 1)")
out=$here/out
rm -rf "$out"
mkdir -p "$out/toolchain/bin" "$out/corpus"

# What the kit's toolchain has, with another clang.
ln -s "$kit/toolchain/lib" "$out/toolchain/lib"
for program in "$kit/toolchain/bin/"*; do
    ln -s "$program" "$out/toolchain/bin/"
done
rm "$out/toolchain/bin/clang"
cat >"$out/toolchain/bin/clang" <<SH
#!/bin/sh
exec "$kit/toolchain/bin/clang" -fsanitize-coverage=inline-8bit-counters,pc-table,trace-cmp "\$@"
SH
chmod +x "$out/toolchain/bin/clang"

# The library, proved once more as it is compiled: `rattle build` compiles nothing else.
(cd "$crate" && rt lib --jobs 2 >/dev/null)
read -ra below < <(sed -n 's/^store_c staticlib: //p' "$top/crates.txt")
libraries=()
for library in "${below[@]}"; do
    libraries+=(--extern "$library=$top/crates/$library/out/rlib/$library.rlib")
done
for folder in "$top"/crates/*/out/rlib; do
    libraries+=(-L "dependency=$folder")
done
for library in core std; do
    libraries+=(--extern "$library=$kit/rlibs/$library.rlib")
done
(cd "$crate" && rattle build --crate-name store_c src/lib.rt --crate-type staticlib "${libraries[@]}" \
    -L "dependency=$kit/rlibs" --antt-project "$kit/rattle/logic/antt-project.json" --logic-built "$kit/logic_built" \
    --jobs 2 --toolchain "$out/toolchain" -o "$out/libstore_c.a")
bash "$top/bindings/c/build.sh" --static "$out/prefix" "$out/libstore_c.a"

# Only the library counts edges: the calls are compiled without.
clang -std=c11 -g -O1 -I"$out/prefix/include" -I"$top/bindings/c/tests" -c -o "$out/calls.o" "$data/calls.c"
clang -g -fsanitize=fuzzer -o "$out/calls" "$out/calls.o" "$out/prefix/lib/libzevkhadun.a"

# How many edges the inputs of a folder reach, each run once: in its fork mode libFuzzer counts other things besides.
reached() {
    "$out/calls" -runs=0 "$1" 2>&1 | sed -nE 's/.*DONE +cov: ([0-9]+) .*/\1/p'
}

python3 "$here/corpus.py" unpack "$data/corpus.hex" "$out/corpus"
before=$(reached "$out/corpus")
(cd "$out" && ./calls -max_total_time="$seconds" -fork=2 -max_len=4096 corpus >fuzz.log 2>&1) ||
    { tail -n 40 "$out/fuzz.log" >&2; exit 1; }
mkdir "$out/least"
"$out/calls" -merge=1 -use_counters=0 "$out/least" "$out/corpus" >"$out/merge.log" 2>&1
python3 "$here/corpus.py" pack "$out/least" "$data/corpus.hex"

edges=$(sed -nE 's/.*Loaded 1 modules +\(([0-9]+) .*/\1/p' "$out/fuzz.log")
echo "edges inside the library: $edges; reached before: $before; after $seconds seconds: $(reached "$out/least")"
echo "inputs in the corpus: $(wc -l <"$data/corpus.hex")"
