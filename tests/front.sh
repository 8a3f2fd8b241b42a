#!/usr/bin/env bash
# The example front end: what it prints, its exit status, its bytes through the spool program, and where it can't read or write.
test=front
# shellcheck source=tests/asserts.bash
source "$(dirname "${BASH_SOURCE[0]}")/asserts.bash"
make -s example spool >/dev/null || { echo "the example or the spool program does not build"; exit 1; }
front=target/example/front
site=(SERVER_NAME=q.example SERVER_PORT=80 SERVER_SOFTWARE=gate/1)
blocks=(--facts REMOTE_ADDR=10.0.0.9 --site "${site[@]}" --mounts /jobs=pool)
expected='267:CONTENT_LENGTH|0|SCGI|1|GATEWAY_INTERFACE|CGI/1.1|PATH_INFO|/7|QUERY_STRING|x=1|REMOTE_ADDR|10.0.0.9|REQUEST_METHOD|GET|REQUEST_URI|/jobs/7?x=1|SCRIPT_NAME|/jobs|SERVER_NAME|q.example|SERVER_PORT|80|SERVER_PROTOCOL|HTTP/1.1|SERVER_SOFTWARE|gate/1|HTTP_HOST|q.example|,'

# raw WORDS..: the SCGI bytes for $dir/in are the expected ones, | for NUL
raw() {
    [ "$("$front" --raw "$@" <"$dir/in" | tr '\000' '|')" = "$expected" ] || complain "--raw writes other bytes: $*"
}

# two Cookie fields, as consoles send them
printf 'GET /jobs HTTP/1.0\r\nCookie: a=1\r\nAccept: x\r\nCookie: b=2\r\n\r\n' >"$dir/in"
"$front" "${blocks[@]}" <"$dir/in" >"$dir/out" || complain "not status 0 for a request with two Cookie fields"
grep -qF -- '|HTTP_COOKIE|a=1; b=2|HTTP_ACCEPT|x|,' "$dir/out" || complain "two Cookie fields are joined in another way"

# a mount with a limit of five bytes: the pool is named without it, and six bytes are refused; so is a bad limit
limited=("${blocks[@]::6}" --mounts '/jobs=pool;5')
printf 'POST /jobs HTTP/1.0\r\nContent-Length: 5\r\n\r\nhello' >"$dir/in"
"$front" "${limited[@]}" <"$dir/in" >"$dir/out" || complain "not status 0 for a body as long as the mount's limit"
grep -qx 'pool: pool' "$dir/out" || complain "the pool of a mount with a limit differs"
refuses 1 "refused 20" "$front" "${limited[@]}" '/x=pool;1048577'
printf 'POST /jobs HTTP/1.0\r\nContent-Length: 6\r\n\r\nhello!' >"$dir/in"
refuses 1 "refused 9" "$front" "${limited[@]}"
refuses 1 "answers 413 and closes" "$front" "${limited[@]}"

# a request that is accepted
printf 'GET /jobs/7?x=1 HTTP/1.1\r\nHost: q.example\r\n\r\n' >"$dir/in"
raw "${blocks[@]}"
raw --facts=REMOTE_ADDR=10.0.0.9 --site="${site[0]}" "${site[@]:1}" --mounts=/jobs=pool
"$front" "${blocks[@]}" <"$dir/in" >"$dir/out" || complain "not status 0 for a request that is accepted"
grep -qxF -- "$expected" "$dir/out" || complain "the readable bytes differ"
grep -qx 'pool: pool' "$dir/out" || complain "the pool differs"
grep -qx 'bytes of HTTP used: 45 of 45 read' "$dir/out" || complain "the bytes used differ"

# requests that are refused, with the text and the status of oyinkafubo_text.h
refuses 1 "refused 20: connection facts, site settings or mounts wrong" "$front" --facts REMOTE_ADDR=10.0.0.9
refuses 1 "refused 20" "$front" --mounts
refuses 1 "refused 19" "$front" "${blocks[@]::6}" --mounts /job=pool
refuses 1 "answers 404 and closes" "$front" "${blocks[@]::6}" --mounts=/job=pool
printf 'GET /a%%2Fb HTTP/1.1\r\nHost: q.example\r\n\r\n' >"$dir/in"
refuses 1 "refused 14: target refused" "$front" "${blocks[@]}"
: >"$dir/in"
refuses 1 "refused 1: the bytes end before the request does" "$front" "${blocks[@]}"
! grep -q answers "$dir/err" || complain "a status for a request that is cut"

# words that it does not understand, and help
refuses 2 "a word before --facts, --site or --mounts: nonsense" "$front" nonsense
refuses 2 "not NAME=VALUE, or too long: REMOTE_ADDR" "$front" --facts REMOTE_ADDR
refuses 2 "not NAME=VALUE, or too long: --mounts=/a" "$front" --mounts=/a
refuses 2 "unknown option: --mount=/a=p" "$front" --mount=/a=p
refuses 2 "usage: front" "$front" -h
"$front" --help >"$dir/out" 2>"$dir/err" || complain "not status 0 for --help"
grep -q '^usage: front' "$dir/out" || complain "--help does not say how it is used"
[ ! -s "$dir/err" ] || complain "--help complains"

# its own request is the recorded one, in another folder too
own=(--facts REMOTE_ADDR=127.0.0.1 --site "${site[@]}" --mounts /app=a)
"$front" --raw "${own[@]}" <host/data/http-curl/06.bin >"$dir/recorded" || complain "the recorded request is refused"
(cd / && "$OLDPWD/$front" --raw) | cmp -s - "$dir/recorded" || complain "its own request is not the recorded one"
[ "$("$front" --raw | target/bin/spool)" = $'395\nwhole' ] || complain "its own request through the spool program"

# a request that can't be read is no refusal, and a result that can't be written is no success
unreadable 3 "front: the request can't be read" "$front" "${own[@]}"
! grep -q refused "$dir/err" || complain "a refusal of a request that can't be read"
unwritable 3 "front: the result can't be written" "$front"
unwritable 3 "front: the result can't be written" "$front" --help
{ printf 'POST /app HTTP/1.0\r\nContent-Length: 1048576\r\n\r\n'; head -c 1048576 /dev/zero; } >"$dir/in"
clogged 3 "front: the result can't be written" "$front" --raw "${own[@]}"
exit $bad
