#!/usr/bin/env bash
# No function of the archive takes more than 24 KiB of stack for itself, which no proof says. tests/capi.sh calls the archive on a stack of
# 64 KiB besides.
set -uo pipefail
cd "$(dirname "${BASH_SOURCE[0]}")/.." || exit 2
command -v objdump >/dev/null || { echo "stack: objdump is missing"; exit 1; }
[ -n "${OY_ARCHIVE_DIR:-}" ] || make -s archive || exit 1

# a function's frame: what it takes off the stack pointer, page by page, or in a loop down to a place that it takes into another register
largest=$(objdump -d "${OY_ARCHIVE_DIR:-target/staticlib}/libcapi.a" |
    sed -nE 's/^[0-9a-f]+ <(.*)>:$/function/p; s/.*(sub +\$(0x[0-9a-f]+),%(rsp|r11)|lea +-(0x[0-9a-f]+)\(%rsp\),%r11).*/\2\4/p' |
    while read -r word; do
        if [ "$word" = function ]; then
            frame=0
        else
            frame=$((frame + word))
            echo "$frame"
        fi
    done | sort -n | tail -n 1)
echo "stack: the largest frame of the archive has ${largest:-no} bytes"
# a buffer of 14,726 bytes for the variables is there, so a smaller figure would say that frames are not seen
[ "${largest:-0}" -ge 14726 ] && [ "$largest" -le 24576 ]
