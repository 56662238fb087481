#!/usr/bin/env bash
# Builds libzevkhadun.a and libzevkhadun.so and installs them, the headers and a pkg-config file.
#
# usage: build.sh [--static] PREFIX [LIBRARY]
#
# With --static it installs libzevkhadun.a and the headers alone. The crate is proved and compiled by `rt lib`, unless
# LIBRARY is its static library already. Its three functions of the heap are the kit's, over malloc. The calls that take
# arrays are those of null_arrays.c, over the proved ones; the other sources are the calls of zevkhadun_file.h.
set -eu
shared=yes
if [ "${1:-}" = --static ]; then
    shared=no
    shift
fi
if [ $# -lt 1 ] || [ $# -gt 2 ]; then
    echo "usage: $0 [--static] PREFIX [LIBRARY]" >&2
    exit 2
fi
here=$(cd "$(dirname "$0")" && pwd)
top=$(cd "$here/../.." && pwd)
crate=$top/crates/store_c
calls=$here/src/null_arrays.c
heap=$(dirname "$(rt doc | head -n 1)")/c/liblibc_c.a
mkdir -p "$1/include" "$1/lib/pkgconfig"
prefix=$(cd "$1" && pwd)
work=$(mktemp -d)
trap 'rm -rf "$work"' EXIT

library=${2:-$crate/out/libstore_c.a}
if [ $# -eq 1 ]; then
    (cd "$crate" && rt lib --jobs 2 >/dev/null)
fi

# Each proved call that null_arrays.c makes gets the name by which it is made there.
mapfile -t proved < <(grep -oE 'zevk_proved_[a-z_]+' "$calls" | sort -u)
names=()
for name in "${proved[@]}"; do
    names+=(--redefine-sym "zevk_${name#zevk_proved_}=$name")
done
"${OBJCOPY:-objcopy}" "${names[@]}" "$library" "$work/proved.a"
ar -M <<MRI
create $work/libzevkhadun.a
addlib $work/proved.a
addlib $heap
save
end
MRI
for source in "$here"/src/*.c; do
    object=$work/$(basename "$source" .c).o
    "${CC:-cc}" -std=c11 -O2 -fPIC -I"$here/include" -c -o "$object" "$source"
    ar -q "$work/libzevkhadun.a" "$object"
done
ranlib "$work/libzevkhadun.a"
install -m 644 "$work/libzevkhadun.a" "$prefix/lib/libzevkhadun.a"
install -m 644 "$here"/include/* "$prefix/include"
if [ $shared = no ]; then
    exit 0
fi

"${CC:-cc}" -shared -o "$work/libzevkhadun.so.1" -Wl,-soname,libzevkhadun.so.1 \
    -Wl,--whole-archive "$work/libzevkhadun.a" -Wl,--no-whole-archive \
    -Wl,--version-script="$here/zevkhadun.map" -Wl,-z,defs -Wl,-z,relro,-z,now
install -m 755 "$work/libzevkhadun.so.1" "$prefix/lib/libzevkhadun.so.1"
ln -sf libzevkhadun.so.1 "$prefix/lib/libzevkhadun.so"
cat >"$prefix/lib/pkgconfig/zevkhadun.pc" <<PC
prefix=\${pcfiledir}/../..
libdir=\${prefix}/lib
includedir=\${prefix}/include

Name: zevkhadun
Description: Document stores: documents by number, read and written
Version: $(cat "$top/VERSION")
Libs: -L\${libdir} -lzevkhadun
Cflags: -I\${includedir}
PC
