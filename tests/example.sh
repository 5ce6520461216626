#!/bin/sh
# The example, host/example.c, is the one that README.md shows; it builds with no warning, as C and as C++, with each compiler that is
# here, and says what README.md says that it says.
#   tests/example.sh ARCHIVE OUT
set -eu
here=$(dirname "$0")/..
mkdir -p "$(dirname "$2")"
block() {
    awk -v kind="$1" '$0 == "```" kind && !done { shown = 1; next } /^```$/ && shown { shown = 0; done = 1 } shown' "$here/README.md"
}
block c | cmp - "$here/host/example.c" || { echo 'README.md shows another example than host/example.c'; exit 1; }
strict='-Wall -Wextra -Wpedantic -Werror -Wconversion'
for compiler in 'cc -std=c99' 'cc -std=c11' 'clang -std=c11' 'g++ -x c++ -std=c++11' 'clang++ -x c++ -std=c++11'; do
    command -v ${compiler%% *} >/dev/null || continue
    $compiler $strict -O2 -I"$here/include" "$here/host/example.c" -x none "$1" -Wl,-z,now -o "$2"
    "$2" <"$here/host/opponents.arboricx" >"$2.stdout"
    block text | diff - "$2.stdout"
done
status=0
"$2" <"$here/Makefile" >"$2.stdout" || status=$?
[ "$status: $(cat "$2.stdout")" = '1: refused, 3: the file does not begin with ARBORICX' ] || { echo "of a file that is no bundle it says: $(cat "$2.stdout")"; exit 1; }
echo 'example: it is the one of README.md, builds as C and as C++, and says what it is to say'
