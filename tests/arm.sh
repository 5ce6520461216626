#!/bin/sh
# The outside tests on AArch64 and on 32-bit ARM, by cross compilers and qemu.
#
#     tests/arm.sh ARCHIVES OUT [SEED [COUNT]]
#
# For each of the two: what the archive defines and wants; that the header is C11; the example and the tool; the stack of each call
# against what the header promises; and the comparison with the reference, of COUNT cases. What is built is put under OUT.
cd "$(dirname "$0")/.." || exit 1
archives=$1 out=$2 seed=${3:-1} count=${4:-10000}

needs=
need() { command -v "$1" >/dev/null || needs="$needs $2"; }
need aarch64-linux-gnu-gcc gcc-aarch64-linux-gnu
need arm-linux-gnueabihf-gcc gcc-arm-linux-gnueabihf
need qemu-aarch64 qemu-user
[ -z "$needs" ] || { echo "make test-arm needs: apt install$needs"; exit 1; }
for archive in "$archives/aarch64-linux-gnu/libarboricx.a" "$archives/arm-linux-gnueabihf/libarboricx.a"; do
    [ -e "$archive" ] || { echo "$archive is not there: make archives builds it"; exit 1; }
done

fail() { echo "$processor: $*"; exit 1; }

# Statically, so that qemu needs no libraries of the other processor.
build() {
    program=$1; shift
    "$tools-gcc" -std=c11 -O2 -Wall -Wextra -Wpedantic -Iinclude -Itests "$@" "$archive" -static -o "$program"
}

check_names() {
    "$tools-nm" -g "$archive" >"$out/$processor.nm" || fail 'nm cannot read the archive'
    sed -nE 's/^(uint32_t|void) (arboricx_[a-z0-9_]+)\(.*/\2/p' include/arboricx.h | sort >"$out/$processor.declared"
    awk '$2 == "T" { print $3 }' "$out/$processor.nm" | sort >"$out/$processor.defined"
    diff "$out/$processor.declared" "$out/$processor.defined" || fail 'declared (<) and defined (>) functions differ'
    others=$(awk 'NF > 1 && $(NF - 1) != "T" && $NF != "memcpy" && $NF != "memset"' "$out/$processor.nm")
    [ -z "$others" ] || fail "the archive has or wants more than it should: $others"
    echo "$processor: the archive defines the $(wc -l <"$out/$processor.defined") functions of the header, and wants memcpy and memset alone"
}

check_header() {
    "$tools-gcc" -std=c11 -pedantic-errors -Wall -Wextra -Werror -fsyntax-only -x c include/arboricx.h || fail 'the header is not C11'
    echo "$processor: the header is C11"
}

check_programs() {
    build "$out/$processor.example" -Wconversion -Werror host/example.c || fail 'host/example.c does not build'
    sed -n '/^```text$/,/^```$/p' README.md | sed '1d;$d' >"$out/expected"
    "$qemu" "$out/$processor.example" <host/opponents.arboricx | diff "$out/expected" - || fail 'host/example.c says something else'
    build "$out/$processor.tool" -Wconversion -Werror host/arboricx.c || fail 'host/arboricx.c does not build'
    build "$out/$processor.wrong" tests/host/tool_wrong.c || fail 'tests/host/tool_wrong.c does not build'
    for tool in tool wrong; do
        printf '#!/bin/sh\nexec %s %s "$@"\n' "$qemu" "$(cd "$out" && pwd)/$processor.$tool" >"$out/$processor.$tool.sh"
        chmod +x "$out/$processor.$tool.sh"
    done
    sh tests/tool.sh "$out/$processor.tool.sh" "$out/$processor.wrong.sh" >"$out/$processor.said" || { cat "$out/$processor.said"; fail 'the tool says something else'; }
    echo "$processor: the example and the tool say what they are to say"
}

# Not every armv7 has NEON.
check_baseline() {
    [ "$processor" = armv7 ] || return 0
    "$tools-readelf" -A "$archive" | grep -q SIMD && fail 'the archive wants NEON'
    "$qemu" -cpu cortex-a9,neon=off "$out/$processor.example" <host/opponents.arboricx >/dev/null || fail 'the example does not run without NEON'
    echo "$processor: the example runs without NEON"
}

check_stack() {
    build "$out/$processor.inputs" -D_DEFAULT_SOURCE bench/stack_inputs.c bench/bench_bundles.c bench/workloads.c tests/reference.c \
        && "$qemu" "$out/$processor.inputs" "$out/$processor.given" || fail 'the inputs for the stack are not made'
    : >"$out/$processor.stack"
    for way in static now lazy; do
        [ $way = static ] && linked=-static || linked="-Wl,-z,$way"
        "$tools-gcc" -std=c11 -O2 -Iinclude -Itests bench/stack.c "$archive" -pthread $linked -o "$out/$processor.measure" || fail 'the measure of the stack does not build'
        "$qemu" -L "/usr/$tools" "$out/$processor.measure" "$out/$processor.given" $way >>"$out/$processor.stack" \
            || { cat "$out/$processor.stack"; fail 'a call takes more stack than the header says'; }
    done
    echo "$processor: each call takes no more stack than the header says ($out/$processor.stack)"
}

check_calls() {
    build "$out/$processor.compare" tests/*.c || fail 'the comparison does not build'
    "$qemu" "$out/$processor.compare" --seed "$seed" --count "$count" >"$out/$processor.compared" || fail 'the comparison fails'
    echo "$processor: seed $seed, $(tail -n 1 "$out/$processor.compared")"
}

check() {
    processor=$1 tools=$2 qemu=$3 archive=$archives/$2/libarboricx.a
    check_names
    check_header
    check_programs
    check_baseline
    check_stack
    check_calls
}

mkdir -p "$out"
check AArch64 aarch64-linux-gnu qemu-aarch64
check armv7 arm-linux-gnueabihf qemu-arm
