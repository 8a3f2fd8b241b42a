#!/usr/bin/env bash
# Times the archive beside the Rust implementation, and the gateway step beside a C program on picohttpparser (bench/peer.c) where libh2o, which
# has that, is installed; on the same inputs, in one run. Counts the instructions of a call where valgrind is there. Tables in Markdown.
set -euo pipefail
cd "$(dirname "${BASH_SOURCE[0]}")/.."
archive=$(realpath "${OY_ARCHIVE_DIR:-target/staticlib}")/libcapi.a
[ -f "$archive" ] || { echo "$archive is not built: run make archive"; exit 1; }

# the peer, as fast as the compiler makes it without knowing the machine
peer=target/bench
mkdir -p "$peer"
if cc -O3 -Wall -Wextra -c bench/peer.c -o "$peer/peer.o" && echo 'int phr_parse_request(); int main(void) { return !phr_parse_request; }' |
    cc -x c - -lh2o -o "$peer/linked" 2>"$peer/why"; then
    rm -f "$peer/libpeer.a" && ar rcs "$peer/libpeer.a" "$peer/peer.o"
    OY_PEER_DIR=$(realpath "$peer")
    export OY_PEER_DIR
else
    echo "libh2o is not installed (Debian's libh2o-dev): no column for the C peer"
    echo
fi
cargo build --release --offline --quiet --manifest-path host/Cargo.toml
programs=host/target/release
"$programs/bench"

command -v valgrind >/dev/null || { echo "no valgrind: instructions are not counted"; exit 0; }

# instructions SIDE NUMBER TIMES: what callgrind counts of a whole run
instructions() {
    valgrind --tool=callgrind --callgrind-out-file=/dev/null "$programs/repeat" "$@" 2>&1 | awk '/Collected/ { print $4 }'
}

# per_call SIDE NUMBER CASES: the instructions of one call, from the difference of two runs
per_call() {
    local few many
    few=$(instructions "$1" "$2" 1)
    many=$(instructions "$1" "$2" 11)
    echo $(((many - few) / (10 * $3)))
}

echo
echo "| Call | Input | Archive, instructions | Rust, instructions | By Rust | C peer, instructions | By the peer |"
echo "|---|---|---:|---:|---:|---:|---:|"
"$programs/repeat" | while IFS=$'\t' read -r number cases call input; do
    ours=$(per_call archive "$number" "$cases")
    rust=$(per_call reference "$number" "$cases")
    peer=-
    if [ "$call" = gateway ] && [ -n "${OY_PEER_DIR:-}" ]; then
        peer=$(per_call peer "$number" "$cases")
    fi
    awk -v call="$call" -v input="$input" -v ours="$ours" -v rust="$rust" -v peer="$peer" 'BEGIN {
        printf "| %s | %s | %d | %d | %.2f | %s | %s |\n", call, input, ours, rust, ours / rust, peer, peer == "-" ? "-" : sprintf("%.2f", ours / peer) }'
done
