#!/bin/sh
# Packs what a team needs, and nothing that needs the kit, into one tar file named by the version:
#
#   packaging/dist.sh ARCHIVES OUT
#
# writes OUT/arboricx-VERSION.tar and its checksum beside it. The bytes depend on the files alone: names are in order, times are the
# day of the version in CHANGELOG.md, owners and modes are fixed.
set -eu
here=$(cd "$(dirname "$0")/.." && pwd)
archives=$(cd "$1" && pwd)
mkdir -p "$2"
cd "$2"
version=$(sed -n 's/^#define ARBORICX_VERSION_TEXT "\(.*\)"$/\1/p' "$here/include/arboricx.h")
day=$(sed -n "s/^## $version (\(.*\))$/\1/p" "$here/CHANGELOG.md")
[ -n "$version" ] && [ -n "$day" ] || { echo 'CHANGELOG.md has no day for the version of the header.' >&2; exit 1; }
name=arboricx-$version
rm -rf "$name" "$name.tar" "$name.tar.sha256"

# A file of the repository, or of the archives, at its place in the package.
put() {
    mkdir -p "$name/$(dirname "$2")"
    cp "$1" "$name/$2"
}
put "$here/packaging/README.md" README.md
put "$here/CHANGELOG.md" CHANGELOG.md
put "$here/include/arboricx.h" include/arboricx.h
for file in example.c arboricx.c opponents.arboricx page.mjs; do put "$here/host/$file" "host/$file"; done
put "$here/crates/check_bundle/stdin" host/leaf.arboricx
for file in FORMAT.md GUARANTEES.md guarantees/ground.md TRUST.md; do put "$here/docs/$file" "docs/$file"; done
for processor in x86_64-linux-gnu aarch64-linux-gnu arm-linux-gnueabihf; do
    put "$archives/$processor/libarboricx.a" "lib/$processor/libarboricx.a"
done
put "$archives/wasm32/arboricx.wasm" lib/wasm32/arboricx.wasm
sed -i "s/VERSION/$version/g" "$name/README.md"
(cd "$name" && find . -type f ! -name SHA256SUMS | LC_ALL=C sort | sed 's,^\./,,' | xargs sha256sum >SHA256SUMS)

tar --format=ustar --sort=name --mtime="$day 00:00:00Z" --owner=0 --group=0 --numeric-owner --mode='u=rw,go=r,a+X' -cf "$name.tar" "$name"
rm -rf "$name"
sha256sum "$name.tar" >"$name.tar.sha256"
cat "$name.tar.sha256"
