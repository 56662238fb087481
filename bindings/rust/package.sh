#!/usr/bin/env bash
# Makes the package of the crate, with the library inside, and lets cargo build it from that package alone.
#
# usage: package.sh PREFIX FOLDER
#
# PREFIX is a folder that bindings/c/build.sh made. FOLDER gets zevkhadun-VERSION.crate. No network is used, and nothing
# is written to the repository.
set -euo pipefail
if [ $# -ne 2 ]; then
    echo "usage: $0 PREFIX FOLDER" >&2
    exit 2
fi
here=$(cd "$(dirname "$0")" && pwd)
mkdir -p "$2"
folder=$(cd "$2" && pwd)
work=$(mktemp -d)
trap 'rm -rf "$work"' EXIT

mkdir -p "$work/crate/lib"
cp -r "$here/src" "$here/examples" "$work/crate"
cp "$here/build.rs" "$here/Cargo.toml" "$here/Cargo.lock" "$here/README.md" "$here/../../LICENSE" "$work/crate"
# This one is a program of the tests.
rm "$work/crate/examples/answers.rs"
install -m 644 "$1/lib/libzevkhadun.a" "$work/crate/lib/libzevkhadun.a"

# The build of the package has to find the library inside it.
unset ZEVKHADUN_PREFIX
(cd "$work/crate" && CARGO_TARGET_DIR=$work/target cargo package --quiet --offline --locked)
install -m 644 "$work/target/package/"zevkhadun-*.crate "$folder"
