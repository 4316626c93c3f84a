#!/bin/sh
# Checks the reference as a whole.
#   check.sh SRC OUT [COUNT]
# Builds the harness from the crate's sources SRC into OUT, makes the sample again and compares it with the stored one,
# then plays COUNT (2040) generated lists on the crate and by the rules and compares the transcripts.
set -eu

if [ $# -lt 2 ]; then
    echo "usage: check.sh SRC OUT [COUNT]" >&2
    exit 2
fi

here=$(cd "$(dirname "$0")" && pwd)
sample=$here/../sample
"$here/build.sh" "$1" "$2"
out=$(cd "$2" && pwd)

rm -rf "$out/sample"
mkdir "$out/sample"
cp "$sample"/worked-*.calls "$sample"/difference-*.calls "$sample"/same-*.calls "$out/sample"
python3 "$here/sample.py" make "$out/harness" "$out/sample"
diff -r "$sample" "$out/sample"
python3 "$here/sample.py" check "$out/sample"

python3 "$here/check.py" "$out/harness" "${3:-2040}" 0 "$out/faults"
