#!/usr/bin/env bash
# Makes the folder that is released: the program with its man page and completions, the library for C, and the packages
# for Python and Rust.
#
# usage: dist.sh [--program FILE] [--library FILE] [FOLDER]
#
# FOLDER is `dist` at the top unless it is named; one that this script made is replaced. The program and the library are
# those that the gate builds: nothing is proved here, and no network is used. It needs the kit's `rt` on the PATH, a C
# compiler, CPython 3.11 or later with its headers (PYTHON, or python3) and cargo. The same sources and tools make the
# same bytes; files have the time of SOURCE_DATE_EPOCH, or else that of the last commit.
set -euo pipefail
top=$(cd "$(dirname "$0")" && pwd)
program=$top/crates/zevkhadun/out/zevkhadun
library=$top/crates/store_c/out/libstore_c.a
folder=$top/dist
while [ $# -gt 0 ]; do
    case $1 in
        --program) program=$2; shift 2 ;;
        --library) library=$2; shift 2 ;;
        -*) echo "usage: $0 [--program FILE] [--library FILE] [FOLDER]" >&2; exit 2 ;;
        *) folder=$1; shift ;;
    esac
done
version=$(cat "$top/VERSION")
SOURCE_DATE_EPOCH=${SOURCE_DATE_EPOCH:-$(git -C "$top" log -1 --format=%ct 2>/dev/null || echo 315532800)}
export SOURCE_DATE_EPOCH

refuse() {
    echo "dist.sh: $*" >&2
    exit 1
}

[ -x "$program" ] || refuse "there is no $program; 'rt run' in crates/zevkhadun builds it"
[ -f "$library" ] || refuse "there is no $library; 'rt lib' in crates/store_c builds it"
case "$("$program" --version)" in
    "zevkhadun $version "*) ;;
    *) refuse "$program is not of version $version" ;;
esac
if [ -e "$folder" ] && [ ! -f "$folder/SHA256SUMS" ]; then
    refuse "$folder is there, and was not made by this script"
fi
work=$(mktemp -d)
trap 'rm -rf "$work"' EXIT
made=$work/dist

install -D -m 755 "$program" "$made/bin/zevkhadun"
install -D -m 644 "$top/bindings/shell/zevkhadun.1" "$made/share/man/man1/zevkhadun.1"
install -D -m 644 "$top/bindings/shell/zevkhadun.bash" "$made/share/bash-completion/completions/zevkhadun"
install -D -m 644 "$top/bindings/shell/_zevkhadun" "$made/share/zsh/site-functions/_zevkhadun"
install -D -m 644 "$top/bindings/shell/zevkhadun.fish" "$made/share/fish/vendor_completions.d/zevkhadun.fish"
bash "$top/bindings/c/build.sh" "$made" "$library"
mkdir "$made/python"
PYTHONDONTWRITEBYTECODE=1 PYTHONPATH=$top/bindings/python/backend ZEVKHADUN_PREFIX=$made \
    "${PYTHON:-python3}" - "$made/python" <<'PYTHON'
import sys
import zevkhadun_build

zevkhadun_build.build_wheel(sys.argv[1])
zevkhadun_build.build_sdist(sys.argv[1])
PYTHON
bash "$top/bindings/rust/package.sh" "$made" "$made/rust"
install -m 644 "$top/LICENSE" "$made/LICENSE"
sed "s/@VERSION@/$version/" "$top/bindings/dist.md" >"$made/README.md"

# One archive of what C, C++ and the shell need.
find "$made" -exec touch -h -d "@$SOURCE_DATE_EPOCH" {} +
name=zevkhadun-$version-linux-x86_64
tar -C "$made" --sort=name --owner=0 --group=0 --numeric-owner --mode=u=rwX,go=rX \
    --format=gnu --transform "s,^,$name/,S" \
    -cf - README.md LICENSE bin include lib share | gzip -9 -n >"$work/$name.tar.gz"
mv "$work/$name.tar.gz" "$made"
(cd "$made" && find . -type f -printf '%P\0' | LC_ALL=C sort -z | xargs -0 sha256sum >"$work/SHA256SUMS")
mv "$work/SHA256SUMS" "$made"
find "$made" -exec touch -h -d "@$SOURCE_DATE_EPOCH" {} +
chmod 755 "$made"

rm -rf "$folder"
mkdir -p "$(dirname "$folder")"
mv "$made" "$folder"
echo "$folder"
