#!/bin/sh
# Builds the archive for each processor out of one proved module:
#
#   packaging/archives.sh OUT
#
# writes OUT/x86_64-linux-gnu/libarboricx.a, OUT/aarch64-linux-gnu/libarboricx.a, OUT/arm-linux-gnueabihf/libarboricx.a and
# OUT/wasm32/arboricx.wasm.
#
# The kit proves the crate and hands its compiler a module. A kit made of links, whose compiler is a wrapper, keeps a copy of that
# module; it names no processor. The kit's own compiler then compiles it for each of them, with the kit's own options. The functions are
# marked so that a crash or a debugger can be traced through them, which adds tables beside the code and changes no instruction: of
# x86-64 that is looked at, byte for byte against the archive that the kit builds.
set -eu
cd "$(dirname "$0")/.."
out=$(mkdir -p "$1" && cd "$1" && pwd)
rt=$(command -v rt) || { echo 'The archives are built with the Rattle kit: rt is not on the path.' >&2; exit 1; }
own=$(dirname "$(dirname "$(readlink -f "$rt")")")
tools=$own/toolchain

# The kit once more, in links, with a compiler that keeps the module. The command rt finds its kit by its own path, so that it is copied.
kit=$out/kit
rm -rf "$kit"
mkdir -p "$kit/bin" "$kit/toolchain/bin"
for f in "$own"/*; do case $(basename "$f") in bin | toolchain) ;; *) ln -s "$f" "$kit/" ;; esac; done
for f in "$own"/bin/*; do case $(basename "$f") in rt | rtlib.py) cp "$f" "$kit/bin/" ;; *) ln -s "$f" "$kit/bin/" ;; esac; done
for f in "$tools"/*; do [ "$(basename "$f")" = bin ] || ln -s "$f" "$kit/toolchain/"; done
for f in "$tools"/bin/*; do [ "$(basename "$f")" = clang ] || ln -s "$f" "$kit/toolchain/bin/"; done
cat >"$kit/toolchain/bin/clang" <<WRAPPER
#!/bin/sh
for a in "\$@"; do case \$a in *.bc) cp "\$a" "$out/module.bc" ;; esac; done
exec "$tools/bin/clang" "\$@"
WRAPPER
chmod +x "$kit/toolchain/bin/clang"
rm -f "$out/module.bc"
(cd crates/arboricx && "$kit/bin/rt" lib --cpu=x86-64) >"$out/log" 2>&1 || { cat "$out/log"; exit 1; }
rm -rf "$kit"

# The module as text, without the processor and the layout that it was made for, and with the mark for unwinding.
"$tools/bin/clang" -S -emit-llvm -x ir "$out/module.bc" -o "$out/module.ll"
sed -i -E '/^(target (datalayout|triple)|; ModuleID)/d
    s/"(target-cpu|tune-cpu|target-features)"="[^"]*" ?//g' "$out/module.ll"

# It may know no size of x86-64 either. All places and sizes in it are written in bytes, and no address is a number. A pointer that stands
# alone is never copied as bytes. None is read or written as a part of a pair, since the places of a pair go by its size; only a pointer
# with 64 bits after it may be, which lie 8 bytes on everywhere.
awk '/^define/ { split("", pointer) }
    $3 == "alloca" && $4 == "ptr," { pointer[$1] = 1 }
    $3 == "alloca" && $4 ~ /^[{%<]/ { known = $0 }
    /call void @llvm\.mem/ { n = split($0, word, /[ ,()]+/); for (i = 1; i <= n; i++) if (word[i] in pointer) known = $0 }
    /(load|store) [{[].*ptr.*, ptr %/ && !/(load|store) \{ ptr, i64 \}/ { known = $0 }
    /ptrtoint|ptrtoaddr|inttoptr/ { known = $0 }
    END { if (known) { print "The module knows how long a pointer is: " known; exit 1 } }' "$out/module.ll"
sed -E '/"probe-stack"/s/^(attributes #[0-9]+ = \{ )/\1uwtable /' "$out/module.ll" >"$out/unwound.ll"

# An archive: its folder, the compiler's name of the processor, the text, further options.
archive() {
    folder=$out/$1 triple=$2 text=$3
    shift 3
    mkdir -p "$folder"
    "$tools/bin/clang" --target="$triple" --no-default-config -Wno-override-module -ffunction-sections -fdata-sections -fPIC -O3 \
        -mllvm -trap-unreachable -mllvm -no-trap-after-noreturn "$@" -c -x ir "$out/$text" -o "$folder/arboricx.o"
    rm -f "$folder/libarboricx.a"
    (cd "$folder" && "$tools/bin/llvm-ar" rcsD libarboricx.a arboricx.o && rm arboricx.o)
    echo "$folder/libarboricx.a"
}

archive x86_64-linux-gnu x86_64-unknown-linux-gnu unwound.ll -mllvm -no-x86-call-frame-opt -mllvm -disable-machine-licm \
    -mllvm -disable-postra-machine-licm -mllvm -sink-common-insts=false
archive aarch64-linux-gnu aarch64-unknown-linux-gnu unwound.ll
# ARM's own tables for unwinding would want two names of the compiler's library; those for a debugger want none. Not every armv7 has NEON.
archive arm-linux-gnueabihf armv7-unknown-linux-gnueabihf module.ll -fforce-dwarf-frame -mfpu=vfpv3-d16

# WebAssembly, linked to a module that imports nothing: it exports the functions of the header, its memory and where that is free. Its
# own instructions take the place of memcpy and memset. The stack, for a plain run too, is the first MiB, so that a call that needed more
# would end in a trap and not in the tables. The linker takes its kind from its name.
wasm() {
    mkdir -p "$out/wasm32"
    "$tools/bin/clang" --target=wasm32-unknown-unknown --no-default-config -Wno-override-module -mbulk-memory -mbulk-memory-opt \
        -ffunction-sections -fdata-sections -O3 -c -x ir "$out/module.ll" -o "$out/wasm32/arboricx.o"
    ln -sf "$(readlink -f "$tools/bin/ld.lld")" "$out/wasm32/wasm-ld"
    "$out/wasm32/wasm-ld" --no-entry --stack-first -z stack-size=1048576 --strip-all --export=__heap_base \
        $(sed -nE 's/^(uint32_t|void) (arboricx_[a-z0-9_]+)\(.*/--export=\2/p' include/arboricx.h) \
        "$out/wasm32/arboricx.o" -o "$out/wasm32/arboricx.wasm"
    rm "$out/wasm32/wasm-ld" "$out/wasm32/arboricx.o"
    echo "$out/wasm32/arboricx.wasm"
}

# All sections but the tables for unwinding, with what the linker puts into them.
sections() {
    objdump -sr "$1" | awk '/^(Contents of section|RELOCATION RECORDS FOR)/ { shown = !/eh_frame/ } shown'
}
sections target/staticlib/libarboricx.a >"$out/kit.txt"
sections "$out/x86_64-linux-gnu/libarboricx.a" >"$out/ours.txt"
[ -s "$out/kit.txt" ] && cmp "$out/kit.txt" "$out/ours.txt" || { echo 'The archive for x86-64 is not the one that the kit builds.' >&2; exit 1; }
rm "$out/kit.txt" "$out/ours.txt"
echo 'archives: that for x86-64 has the code of the one that the kit builds'
wasm
