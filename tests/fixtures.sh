#!/bin/sh
# What the test programs read, and what they have to write, is what the generators of fixtures/ make, file by file.
here=$(dirname "$0")/..
out=$1
rm -rf "$out"
for name in sha256_vectors utf8_vectors wire_vectors run_cases bundle_cases load_cases; do
    mkdir -p "$out/crates/$name"
    python3 "$here/fixtures/$name.py" "$out/crates/$name" || exit 1
done
mkdir -p "$out/crates/listing_cases" "$out/crates/check_bundle" "$out/host"
python3 "$here/fixtures/listing_cases.py" "$out/crates/listing_cases" "$out/crates/check_bundle" || exit 1
python3 "$here/fixtures/host_bundle.py" "$out/host" || exit 1

made=$(cd "$out" && find crates host -type f | sort)
stored=$(cd "$here" && find crates/*/stdin crates/*/stdout crates/*/data host/*.arboricx -type f | sort)
[ "$made" = "$stored" ] || { echo 'fixtures: other files are stored than the generators make'; exit 1; }
for path in $made; do
    cmp "$here/$path" "$out/$path" || exit 1
done
echo "fixtures: $(echo "$made" | wc -l) files are as the generators make them"
