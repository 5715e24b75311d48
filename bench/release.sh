#!/bin/sh
# Packs the program for who has no kit: registry-VERSION-linux-x86_64.tar.gz, and beside it its SHA-256 digest. In it are
# the program, LICENSE, README.md, CHANGELOG.md, docs/, and BUILT: the version by CHANGELOG.md, the commit, the kit by
# `rt version`, where the program came from, and its own digest. It is crates/registry/out/registry, where ./quickstart.sh
# and `rt ci` put what is proved, or another that is named; this script doesn't look whether either was proved. The same
# commit and program make the same bytes. It prints what it packed, and ends with status 1 where README.md names another
# version.
#
#     bench/release.sh FOLDER [PROGRAM]
set -eu
[ $# -ge 1 ] && [ $# -le 2 ] && [ -d "$1" ] || {
    echo "usage: bench/release.sh FOLDER [PROGRAM]" >&2
    exit 2
}
into=$(cd "$1" && pwd)
from=${2:+$(realpath "$2")}
cd "$(dirname "$0")/.."

stop() {
    echo "release.sh: $1" >&2
    exit 1
}

if [ -n "$from" ]; then
    program=$from origin="another than the gate's: nobody looked whether it was proved"
else
    program=crates/registry/out/registry origin="crates/registry/out/registry, where the gate puts what it has proved"
fi
[ -x "$program" ] || stop "no $program: run ./quickstart.sh first"
version=$(sed -n 's/^## \([0-9.]*\), .*/\1/p' CHANGELOG.md | head -1)
grep -q "^Version $version," README.md || stop "README.md doesn't name version $version"
kit=$(rt version) || stop "the kit's command rt is not on the PATH"
commit=$(git describe --always --dirty --abbrev=12 --exclude '*')
name=registry-$version-linux-x86_64
folder=$(mktemp -d)
trap 'rm -rf "$folder"' EXIT

mkdir "$folder/$name"
git ls-files LICENSE README.md CHANGELOG.md docs | tar -c -T - | tar -x -C "$folder/$name"
install -m 755 "$program" "$folder/$name/registry"
digest=$(sha256sum < "$program")
cat > "$folder/$name/BUILT" <<BUILT
version  $version
commit   $commit
kit      $kit
program  $origin
sha256   ${digest%% *}
BUILT
tar -c --sort=name --owner=0 --group=0 --numeric-owner --mode=u+rwX,go+rX,go-w --mtime="@$(git log -1 --format=%ct)" -C "$folder" "$name" |
    gzip -9n > "$into/$name.tar.gz"
(cd "$into" && sha256sum "$name.tar.gz" > "$name.tar.gz.sha256")
cat "$folder/$name/BUILT"
echo "packed   $(tar -tzf "$into/$name.tar.gz" | grep -cv '/$') files, $(stat -c %s "$into/$name.tar.gz") bytes"
cat "$into/$name.tar.gz.sha256"
