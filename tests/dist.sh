#!/bin/sh
# What `make dist` packs: all files are there, each archive is for its processor, and packed on another day, by other hands, it has the
# same bytes. Unpacked in a folder of its own, with no kit on the path, it does what its README.md says: the checksums agree, the example
# and the tool build with each compiler that is here, as C and as C++, and say what they are to say. A crash inside the archive is traced
# through it.
#   tests/dist.sh ARCHIVES OUT
set -eu
here=$(cd "$(dirname "$0")/.." && pwd)
archives=$(cd "$1" && pwd)
rm -rf "$2"
mkdir -p "$2"
out=$(cd "$2" && pwd)
version=$(sed -n 's/^#define ARBORICX_VERSION_TEXT "\(.*\)"$/\1/p' "$here/include/arboricx.h")
name=arboricx-$version
folder=$(mktemp -d)
trap 'rm -rf "$folder"' EXIT
fail() { echo "dist: $*"; exit 1; }

"$here/packaging/dist.sh" "$archives" "$out" >/dev/null
(umask 077; TZ=Asia/Tokyo LC_ALL=C "$here/packaging/dist.sh" "$archives" "$folder" >/dev/null)
cmp "$out/$name.tar" "$folder/$name.tar" || fail 'packed twice it has other bytes'
tar --numeric-owner -tvf "$out/$name.tar" | grep -v ' 0/0 ' && fail 'an owner is packed'
tar -xf "$out/$name.tar" -C "$folder"
cd "$folder/$name"
PATH=$(printf '%s\n' "$PATH" | tr : '\n' | while read -r place; do [ -x "$place/rt" ] || printf '%s:' "$place"; done)

# ---- what is in it

cat >../listed <<LIST
CHANGELOG.md
README.md
docs/FORMAT.md
docs/GUARANTEES.md
docs/TRUST.md
docs/guarantees/ground.md
host/arboricx.c
host/example.c
host/leaf.arboricx
host/opponents.arboricx
host/page.mjs
include/arboricx.h
lib/aarch64-linux-gnu/libarboricx.a
lib/arm-linux-gnueabihf/libarboricx.a
lib/wasm32/arboricx.wasm
lib/x86_64-linux-gnu/libarboricx.a
LIST
find . -type f ! -name SHA256SUMS | sed 's,^\./,,' | LC_ALL=C sort | diff ../listed - || fail 'other files are packed than listed'
sed 's/^[0-9a-f]*  //' SHA256SUMS | diff ../listed - || fail 'SHA256SUMS has other files'
sha256sum -c --quiet SHA256SUMS
grep -q "^# Arboricx $version " README.md && ! grep -q VERSION README.md || fail 'README.md does not name the version'

# An archive: the machine that it is for, a section that it needs for unwinding, and the functions of the header.
sed -nE 's/^(uint32_t|void) (arboricx_[a-z0-9_]+)\(.*/\2/p' include/arboricx.h | LC_ALL=C sort >../declared
archive() {
    readelf -hW "lib/$1/libarboricx.a" | grep -q "Machine: *$2\$" || fail "the archive in lib/$1 is not for $2"
    readelf -SW "lib/$1/libarboricx.a" | grep -q " \.$3 " || fail "the archive in lib/$1 has no .$3"
    readelf -sW "lib/$1/libarboricx.a" | awk '$4 == "FUNC" && $5 == "GLOBAL" { print $8 }' | LC_ALL=C sort | diff ../declared - || fail "the archive in lib/$1 has other functions"
}
archive x86_64-linux-gnu 'Advanced Micro Devices X86-64' eh_frame
archive aarch64-linux-gnu AArch64 eh_frame
archive arm-linux-gnueabihf ARM debug_frame
[ "$(head -c 4 lib/wasm32/arboricx.wasm | od -An -c | tr -d ' ')" = '\0asm' ] || fail 'arboricx.wasm is no WebAssembly'

# ---- what it does

archive=lib/x86_64-linux-gnu/libarboricx.a
strict='-Wall -Wextra -Wpedantic -Werror -Wconversion -Iinclude'
sed -n '/^says$/,/^and$/s/^    //p' README.md >expected
tried=
for compiler in 'cc -std=c11' 'clang -std=c11' 'g++ -x c++' 'clang++ -x c++'; do
    command -v ${compiler%% *} >/dev/null || continue
    for program in example arboricx; do $compiler -O2 $strict host/$program.c -x none $archive -Wl,-z,now -o $program; done
    ./example <host/opponents.arboricx | diff expected -
    ./arboricx check host/opponents.arboricx host/leaf.arboricx >/dev/null
    tried="$tried ${compiler%% *}"
done

# A file that is not there: the handler has to find its way from the crash through the archive to main.
cat >crash.c <<'C'
#include <execinfo.h>
#include <signal.h>
#include <unistd.h>
#include "arboricx.h"
static void trace(int signal)
{
    void *frames[64];
    backtrace_symbols_fd(frames, backtrace(frames, 64), STDOUT_FILENO);
    _exit(signal);
}
int main(void)
{
    static uint32_t words[64], exports[64], answer[3];
    void *frames[64];
    const uint8_t *volatile nowhere = (const uint8_t *)16;
    backtrace(frames, 64);
    signal(SIGSEGV, trace);
    return (int)arboricx_load(nowhere, 100, words, 64, 0, exports, 64, answer);
}
C
cc -std=c11 -O2 -rdynamic -Iinclude crash.c $archive -o crash
./crash >traced || true
grep -q 'arboricx_load' traced && grep -q '(main' traced || { cat traced; fail 'a crash is not traced through the archive'; }
echo "dist: $name.tar is whole, and builds with$tried and no kit; $(cut -c 1-64 "$out/$name.tar.sha256")"
