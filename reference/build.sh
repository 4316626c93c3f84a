#!/bin/sh
# Builds the harness around the published sources of sled 0.34.7.
#   build.sh SRC OUT
# SRC is the folder that holds the crate's own `src` folder (with src/pagecache/segment.rs below it).
# OUT is a folder of the caller's; the program is OUT/harness. Plain rustc, no registry.
set -eu

if [ $# -ne 2 ]; then
    echo "usage: build.sh SRC OUT" >&2
    exit 2
fi

here=$(cd "$(dirname "$0")" && pwd)
source_dir=$(cd "$1" && pwd)/src
mkdir -p "$2"
out=$(cd "$2" && pwd)

for name in pagecache/segment.rs pagecache/snapshot.rs pagecache/disk_pointer.rs pagecache/constants.rs result.rs; do
    if [ ! -f "$source_dir/$name" ]; then
        echo "build.sh: $source_dir/$name is missing" >&2
        exit 1
    fi
done

# A path attribute takes no macro, so the places of the crate's files are written out here.
cat > "$out/pagecache_files.rs" <<END
#[path = "$source_dir/pagecache/segment.rs"] mod segment;
#[path = "$source_dir/pagecache/snapshot.rs"] mod snapshot;
#[path = "$source_dir/pagecache/disk_pointer.rs"] mod disk_pointer;
#[path = "$source_dir/pagecache/constants.rs"] pub mod constants;
END
cat > "$out/root_files.rs" <<END
#[path = "$source_dir/result.rs"] mod result;
END

# Overflow checks stay on, as in the crate's own debug build. The crate's warnings are not ours.
CRATE_FILES="$out" rustc --edition 2018 --crate-name harness -C opt-level=1 \
    -C overflow-checks=on -C debug-assertions=on --cap-lints allow \
    -o "$out/harness" "$here/src/main.rs"
echo "built $out/harness"
