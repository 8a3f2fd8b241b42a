#!/usr/bin/env bash
# Holds the archive to the C test program and to the tests of the Rust host. Needs a C compiler and cargo. The last line is
# 'N passed, M failed'. OY_ARCHIVE_DIR names another folder with libcapi.a, which is then not built here.
set -uo pipefail
cd "$(dirname "${BASH_SOURCE[0]}")/.." || exit 2
[ -n "${OY_ARCHIVE_DIR:-}" ] || make -s archive || exit 1
folder=$(realpath "${OY_ARCHIVE_DIR:-target/staticlib}")
export OY_ARCHIVE_DIR=$folder
dir=$(mktemp -d)
trap 'rm -rf "$dir"' EXIT
passed=0
failed=0

# add FILE PATTERN: adds the counts of each line of the file that has the pattern; without such a line that is one failure
add() {
    local p f
    read -r p f < <(grep -E "$2" "$1" | awk '{ for (i = 2; i <= NF; i++) { if ($i ~ /^passed/) p += $(i - 1); if ($i ~ /^failed/) f += $(i - 1) } }
        END { print p + 0, NR ? f + 0 : 1 }')
    passed=$((passed + p))
    failed=$((failed + f))
}

# c_test NAME COMMAND..: builds the C test with $flags and runs it under the command
c_test() {
    local name=$1
    shift
    : >"$dir/c.out"
    if cc -std=c89 -Wall -Wextra -Wpedantic -Werror -g -O1 "${flags[@]}" -Iinclude host/c/test.c "$folder/libcapi.a" -o "$dir/test"; then
        "$@" "$dir/test" >"$dir/c.out" 2>&1 || { cat "$dir/c.out"; echo "0 passed, 1 failed" >>"$dir/c.out"; }
    fi
    echo "C test, $name: $(tail -n 1 "$dir/c.out")"
    add "$dir/c.out" '^[0-9]+ passed'
}

# the sanitizers see what the test and the C library do; valgrind also sees each access of the archive
flags=('-fsanitize=address,undefined' -fno-sanitize-recover=all)
echo 'int main(void) { return 0; }' >"$dir/empty.c"
if cc "${flags[@]}" "$dir/empty.c" -o "$dir/empty" 2>/dev/null && "$dir/empty"; then
    c_test "with sanitizers" env
fi
flags=()
c_test "plain" env
if command -v valgrind >/dev/null; then
    c_test "under valgrind" valgrind -q --error-exitcode=1 --leak-check=full
fi

if ! cargo test --offline --quiet --manifest-path host/Cargo.toml >"$dir/rust.out" 2>&1; then
    cat "$dir/rust.out"
    grep -q '^test result: FAILED' "$dir/rust.out" || echo "test result: not run; 0 passed; 1 failed" >>"$dir/rust.out"
fi
echo "Rust host: $(grep -c '^test result:' "$dir/rust.out") test programs"
add "$dir/rust.out" '^test result:'

echo "$passed passed, $failed failed"
[ "$failed" -eq 0 ]
