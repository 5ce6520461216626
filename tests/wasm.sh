#!/bin/sh
# The WebAssembly module against the archive: calls that are recorded by the comparison are made again on the module, in node.
#
#     tests/wasm.sh WASM COMPARE RECORD [SEED [COUNT]]
#
# COMPARE is the program of the comparison, RECORD a file for what it records of COUNT cases.
wasm=$1 compare=$2 record=$3 seed=${4:-1} count=${5:-1000}
command -v node >/dev/null || { echo 'make test-wasm needs: apt install nodejs'; exit 1; }
[ -e "$wasm" ] || { echo "$wasm is not there: make archives builds it"; exit 1; }
"$compare" --seed "$seed" --count "$count" --record "$record" >"$record.compared" || exit 1
echo "wasm: seed $seed, $count cases are recorded"
node "$(dirname "$0")/wasm.mjs" "$wasm" "$record"
status=$?
rm "$record" "$record.compared" # some hundred megabytes
exit $status
