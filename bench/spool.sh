#!/usr/bin/env bash
# Times the spool program beside `cat FILE | wc -c` on the same files, in one run. Input: the example request of the SCGI text of 2008 (101
# bytes) over and over, about 1 MB and about 1 GB of it, and about 1 GB of requests with bodies of 1,000,000 bytes.
set -euo pipefail
cd "$(dirname "${BASH_SOURCE[0]}")/.."
spool=target/bin/spool
[ -x "$spool" ] || { echo "$spool is not built: run make spool"; exit 1; }
dir=$(mktemp -d)
trap 'rm -rf "$dir"' EXIT

# seconds COMMAND..: the shortest of three runs
seconds() {
    for _ in 1 2 3; do
        { TIMEFORMAT=%R; time "$@" >/dev/null; } 2>&1
    done | sort -n | head -n 1
}
read_all() { cat "$1" | wc -c; }
run_spool() { cat "$1" | "$spool"; }

# compare NAME FILE ENDING: both times, and the spool program's last line must be the ending
compare() {
    local bytes got
    bytes=$(wc -c <"$2")
    got=$("$spool" <"$2" | tail -n 1)
    [ "$got" = "$3" ] || { echo "$1: ended $got, not $3"; exit 1; }
    printf '%s: %s bytes: cat|wc %s s, cat|spool %s s\n' "$1" "$bytes" "$(seconds read_all "$2")" "$(seconds run_spool "$2")"
}

# repeat N FILE: the file's bytes N times
repeat() { for _ in $(seq "$1"); do cat "$2"; done; }

printf '70:CONTENT_LENGTH\00027\000SCGI\0001\000REQUEST_METHOD\000POST\000REQUEST_URI\000/deepthought\000,What is the answer to life?' >"$dir/one"
repeat 100 "$dir/one" >"$dir/hundred"
repeat 100 "$dir/hundred" >"$dir/small"
{ printf '30:CONTENT_LENGTH\0001000000\000SCGI\0001\000,'; head -c 1000000 /dev/zero; } >"$dir/body"

compare "small requests" "$dir/small" whole
repeat 1000 "$dir/small" >"$dir/many"
compare "small requests" "$dir/many" whole
rm "$dir/many"
repeat 1000 "$dir/body" >"$dir/large"
compare "large bodies" "$dir/large" whole
