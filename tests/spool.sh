#!/usr/bin/env bash
# Runs the spool program on spools made here and compares what it prints, byte for byte; then where it can't read or write.
test=spool
# shellcheck source=tests/asserts.bash
source "$(dirname "${BASH_SOURCE[0]}")/asserts.bash"
make -s spool >/dev/null || { echo "the spool program does not build"; exit 1; }
spool=target/bin/spool

# check NAME: runs the program on $dir/in and compares its output with $dir/want
check() {
    if ! "$spool" <"$dir/in" >"$dir/got" 2>"$dir/err" || ! cmp -s "$dir/got" "$dir/want" || [ -s "$dir/err" ]; then
        complain "$1: printed"
        head -n 5 "$dir/got" "$dir/err"
        echo "but should have printed"
        head -n 5 "$dir/want"
    fi
}

# ends NAME BYTES LINES..: the bytes (a printf format) give these lines
ends() {
    local name=$1
    # shellcheck disable=SC2059
    printf "$2" >"$dir/in"
    shift 2
    printf '%s\n' "$@" >"$dir/want"
    check "$name"
}

# request N: a request with a body of N bytes
request() {
    local block="CONTENT_LENGTH|$1|SCGI|1|"
    printf '%s:%s,' "${#block}" "$block" | tr '|' '\000'
    head -c "$1" /dev/zero | tr '\000' x
}

# the byte length of such a request
request_length() {
    local block="CONTENT_LENGTH|$1|SCGI|1|"
    echo $(($(printf %s "${#block}" | wc -c) + 1 + ${#block} + 1 + $1))
}

# requests_of_28 N: so many requests of 28 bytes
requests_of_28() { yes '24:CONTENT_LENGTH|0|SCGI|1|,' | head -n "$1" | tr -d '\n' | tr '|' '\000'; }

example='70:CONTENT_LENGTH\00027\000SCGI\0001\000REQUEST_METHOD\000POST\000REQUEST_URI\000/deepthought\000,What is the answer to life?'
ends "an empty spool" '' whole
ends "the example" "$example" 101 whole
ends "the example twice" "$example$example" 101 101 whole
ends "the example, cut" "${example%?}" cut
ends "the example, and the start of another" "${example}7" 101 cut
ends "refused 2" "${example}05" 101 "refused 2"
ends "refused 3" "${example}16385" 101 "refused 3"
ends "refused 4" "${example}0:x" 101 "refused 4"
ends "refused 5" '1:\000,' "refused 5"
ends "refused 7" '41:CONTENT_LENGTH\0000\000CONTENT_LENGTH\0000\000SCGI\0001\000,' "refused 7"
ends "refused 8" "${example}0:," 101 "refused 8"
eleven='24:CONTENT_LENGTH\0000\000SCGI\0001\000,34:CONTENT_LENGTH\00000000000003\000SCGI\0001\000,abc24:CONTENT'
ends "refused 8 between two others" "$eleven" 28 "refused 8"
ends "refused 9" '30:CONTENT_LENGTH\0001048577\000SCGI\0001\000,' "refused 9"
ends "refused 10" '17:CONTENT_LENGTH\0000\000,' "refused 10"

# 129 headers
{
    printf 'CONTENT_LENGTH\0000\000SCGI\0001\000'
    for i in $(seq 127); do printf 'H%d\000\000' "$i"; done
} >"$dir/block"
{ printf '%d:' "$(wc -c <"$dir/block")"; cat "$dir/block"; printf ,; } >"$dir/in"
echo "refused 6" >"$dir/want"
check "refused 6"

# what README says finds the spools that a number of more than ten digits ends
mkdir "$dir/spools"
ln -s "$PWD/target" "$dir/spools/target"
# shellcheck disable=SC2059
printf "$eleven" >"$dir/spools/eleven.spool"
requests_of_28 3 >"$dir/spools/good.spool"
sed -n '/^    for file in/,/^    done/p' README.md >"$dir/which"
[ "$(cd "$dir/spools" && bash ../which)" = "eleven.spool: request 2, at byte 28" ] || complain "README's search for spools that end in refused 8"

# the largest body, whole and cut
request 1048576 >"$dir/in"
{ request_length 1048576; echo whole; } >"$dir/want"
check "a body of 1,048,576 bytes"
request 1048576 | head -c -1 >"$dir/in"
echo cut >"$dir/want"
check "a body of 1,048,576 bytes, cut"

# more requests than the list has room for
requests_of_28 3000 >"$dir/in"
{ yes 28 | head -n 3000; echo whole; } >"$dir/want"
check "3,000 requests"

# bodies that cross the window, many times
for i in $(seq 7); do request 900001; request 3; done >"$dir/in"
{ for i in $(seq 7); do request_length 900001; request_length 3; done; echo whole; } >"$dir/want"
check "a spool longer than the window"

# bytes that come slowly
{ for i in 1 2 3; do request 5; sleep 0.05; printf '24:CONT'; sleep 0.05; printf 'ENT_LENGTH|0|SCGI|1|,' | tr '|' '\000'; done; } | "$spool" >"$dir/got"
{ for i in 1 2 3; do request_length 5; echo 28; done; echo whole; } >"$dir/want"
cmp -s "$dir/got" "$dir/want" || complain "bytes that come slowly give other lines"

# the stack that README names is enough for the largest request
request 1048576 >"$dir/in"
[ "$( (ulimit -s 1280 && "$spool") <"$dir/in" | tail -n 1)" = whole ] || complain "1,280 KiB of stack are not enough"

# a read that fails is no end of the input: a complaint and no ending. The exit status says nothing: the language has none
unreadable 0 "spool: standard input can't be read" "$spool"

# a write that fails: a complaint and no ending, of an empty spool too, whose ending is the first line
: >"$dir/in"
unwritable 0 "spool: standard output can't be written" "$spool"
requests_of_28 30000 >"$dir/in"
unwritable 0 "spool: standard output can't be written" "$spool"
clogged 0 "spool: standard output can't be written: Resource temporarily unavailable" "$spool"
[ "$(sort -u "$dir/out")" = 28 ] || complain "another line than lengths before a write that failed"
[ "$(wc -l <"$dir/out")" -lt 30000 ] || complain "the pipe was not full"

# with arguments: how it is used, and no byte is read
for word in "$dir/in" --help ''; do
    refuses 0 "usage: spool <FILE" "$spool" "$word"
done
[ "$({ "$spool" word 2>/dev/null; wc -c; } <"$dir/in")" -eq 840000 ] || complain "input was read although there are arguments"
exit $bad
