#!/bin/sh
# tool.sh TOOL WRONG_TOOL: every command of the tool on files sound, refused and missing and with wrong arguments. What it prints
# and its exit status are compared with tests/tool.stdout; lines that begin with ! were printed on standard error. WRONG_TOOL is
# the tool of tests/host/tool_wrong.c.
LC_ALL=C
export LC_ALL
here=$(cd "$(dirname "$0")" && pwd)
tool=$(cd "$(dirname "$1")" && pwd)/$(basename "$1")
wrong_tool=$(cd "$(dirname "$2")" && pwd)/$(basename "$2")
folder=$(mktemp -d) || exit 1
trap 'rm -rf "$folder"' EXIT
mkdir "$folder/files" && cd "$folder/files" || exit 1

# ---- the version, which tool.stdout does not tell

header=$here/../include/arboricx.h
version=$(sed -n 's/^#define ARBORICX_VERSION_TEXT "\(.*\)"$/\1/p' "$header")
number=$(sed -n 's/^#define ARBORICX_VERSION \([0-9]*\)$/\1/p' "$header")

# ---- the files

# patch FILE PLACE BYTES: BYTES as printf has them
patch() { printf "$3" | dd of="$1" bs=1 seek="$2" conv=notrunc 2>/dev/null; }

# changed FILE PLACE BYTES: the sample with these bytes in it
changed() { cp sample "$1" && patch "$1" "$2" "$3"; }

# digest FILE START LENGTH: the digest of a part, as printf has bytes
digest()
{
    tail -c "+$(($2 + 1))" "$1" | head -c "$3" | "$tool" sha256 | cut -c 1-64 | fold -w 2 |
        while read -r byte; do printf '\\%03o' "0x$byte"; done
}

cp "$here/../host/opponents.arboricx" sample
cp "$here/../crates/check_bundle/stdin" small
for name in names_nul names_multibyte; do cp "$here/../crates/bundle_cases/data/$name.arboricx" $name; done
: >empty
mkdir folder
head -c 31 sample >cut_31
head -c 200 sample >cut_200
head -c 1586 sample >cut_1586
changed magic 0 'a'
changed major 9 '\002'
changed count 15 '\000'
changed critical 35 '\003'
changed digest 60 '\000'
changed name 434 'pain'
changed node 1586 '\377'
{ cat sample; head -c 63949 /dev/zero; } >longest
{ cat sample; head -c 63950 /dev/zero; } >longer
# Names with control characters of every kind, and the manifest's digest made right again.
changed controls 434 '\033\302\205\134'
patch controls 506 '\000\n\t\177\302\240\r'
patch controls 581 'a\302\237\037b c'
patch controls 60 "$(digest controls 152 508)"
head -c 200000 /dev/zero >zeros
odd_name='odd\
name'
cp empty "$odd_name"

# ---- one use, and all that it says

# use ARGUMENT.. <INPUT: TOOL_USED is the tool, or the wrong one
use()
{
    printf '$ arboricx%s: %s\n' "${WRONG:+ with $WRONG wrong}" "$*" | cat -v
    "$TOOL_USED" "$@" >../stdout 2>../stderr
    status=$?
    cat ../stdout
    sed 's/^/! /' ../stderr
    echo "status $status"
}

wrong() { WRONG=$1 TOOL_USED=$wrong_tool && export WRONG && shift && use "$@" && unset WRONG && TOOL_USED=$tool; }

TOOL_USED=$tool
{
    use check sample
    use check small
    use check sample small
    use check empty cut_31 cut_200 cut_1586 magic major count critical digest name node
    use check longest longer
    use check <longer
    use check missing
    use check folder
    use check sample missing magic folder small
    use check magic sample
    use check "$odd_name"
    use check "$(printf '\302\237 \302x \302')"
    use check <sample
    use check - <sample
    use check sample - small <magic
    use check - - <sample
    use check </dev/null
    use check -- sample
    use check -- --help
    use check --fuel 1 sample
    use check -x
    use check --help

    use list sample
    use list small
    use list longest
    use list names_nul
    use list names_multibyte
    use list controls
    use list <sample
    use list - <small
    use list -- sample
    use list digest
    use list longer
    use list empty
    use list missing
    use list folder
    use list sample small
    use list --both sample
    use list --help

    use play sample
    use play sample main --fuel 1
    use play sample patient --fuel 3
    use play sample endless --fuel 100 --moves 4
    use play sample endless
    use play sample endless --fuel 1000000
    use play sample nobody
    use play "$here/tool.sh" | sed "s|$here/||"
    use play small
    use play small main
    use play --plain sample
    use play sample --plain patient --fuel 3
    use play --plain --fuel 600 sample endless
    use play --plain --fuel 1001 sample main
    use play --both sample
    use play --both sample main --fuel=1
    use play --both sample endless --fuel=100 --moves=4
    use play --both sample endless
    use play --both --fuel 1001 sample main
    use play --both magic
    use play - patient <sample
    use play controls "$(printf '\033\302\205\134')"
    use play sample "$(printf '\033[2J')"
    use play names_nul
    use play sample ''
    use play sample -- -x
    use play --moves 0 sample
    use play --fuel 0 --moves 2 sample
    use play --fuel 4294967295 --moves 4294967295 sample
    use play missing
    use play folder main
    use play
    use play sample main 1000
    use play sample --fuel
    use play sample --fuel 4294967296
    use play sample --fuel 18446744073709551617
    use play sample --fuel -1
    use play sample --fuel +1
    use play sample --fuel ' 1'
    use play sample --fuel 1x
    use play sample --fuel 1-
    use play sample --fuel 0x10
    use play sample --fuel ''
    use play sample --fuel=
    use play sample --moves ten
    use play sample --plain --both
    use play sample --plain=1
    use play sample --engine both
    use play sample --fuell 1
    use play sample --fue 1
    use play --help

    use sha256 sample small empty
    use sha256 zeros longer
    use sha256 <sample
    use sha256 - zeros </dev/null
    use sha256 missing empty folder
    use sha256 "$odd_name"
    use sha256 -b empty
    use sha256 --help

    use
    use --help
    use --help check
    use --version 1
    use -h
    use verify sample
    use ''
    use "$(printf 'a\033b')"

    for part in 0 1 2 3 word load run plain_run; do wrong $part play --both sample main; done
    wrong load list sample
    wrong load list magic
    wrong run play sample
    wrong plain_run play --plain sample
    wrong carry_on play --fuel 1 sample
    { wrong version check sample; wrong version sha256 sample; wrong version --version; } |
        sed "s/$number/NUMBER/; s/$((number + 1))/NEXT/; s/ $version,/ VERSION,/"
    wrong version check --help | sed -n '1,2p; $p'
    wrong terminal check missing sample sample | tr '\r' '~'
    wrong terminal check sample small | tr '\r' '~'
    wrong terminal check sample
    wrong terminals check sample small | tr '\r' '~'
    wrong terminal check sample sample sample sample sample sample sample sample sample sample sample sample sample sample \
        sample sample magic missing | tr '\r' '~'

    echo '$ both outputs in one'
    "$tool" check sample missing magic 2>&1
    for arguments in 'check sample' 'list sample' 'play sample' 'sha256 sample' --help --version 'check --help'; do
        echo "\$ arboricx: $arguments >/dev/full"
        "$tool" $arguments 2>&1 >/dev/full
        echo "status $?"
    done
    echo '$ arboricx: check magic >&-'
    "$tool" check magic 2>&1 >&-
    echo "status $?"
    echo '$ arboricx: play --both sample >/dev/full, with run wrong'
    WRONG=run "$wrong_tool" play --both sample 2>&1 >/dev/full
    echo "status $?"
} >../found
diff "$here/tool.stdout" ../found || exit 1

# ---- against others

said=$("$tool" --version)
[ "$said" = "arboricx $version, archive $number" ] || { echo "the tool's version: $said"; exit 1; }
if command -v sha256sum >/dev/null; then
    "$tool" sha256 * 2>/dev/null >../ours
    sha256sum * 2>/dev/null >../theirs
    diff ../ours ../theirs || exit 1
fi
echo "tool: every command says what it should"
