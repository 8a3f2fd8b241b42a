#!/usr/bin/env bash
# The archive has the functions that the header declares and no other global symbol, and needs nothing but memcpy, memmove and memset.
test=symbols
# shellcheck source=tests/asserts.bash
source "$(dirname "${BASH_SOURCE[0]}")/asserts.bash"
command -v nm >/dev/null || { echo "symbols: nm is missing"; exit 1; }
[ -n "${OY_ARCHIVE_DIR:-}" ] || make -s archive >/dev/null || { echo "the archive does not build"; exit 1; }
archive=${OY_ARCHIVE_DIR:-target/staticlib}/libcapi.a
sed -nE 's/^(uint64_t|struct oy_[a-z]+) (oy_[a-z_]+)\(.*/\2/p' include/oyinkafubo.h | LC_ALL=C sort >"$dir/declared"
nm -g --defined-only "$archive" | awk 'NF == 3 { print $3 }' | LC_ALL=C sort >"$dir/defined"
[ "$(wc -l <"$dir/declared")" -eq 9 ] || complain "the header declares other than nine functions"
diff "$dir/declared" "$dir/defined" || complain "the archive has other symbols than the header declares"
nm -u "$archive" | awk '$1 == "U" && $2 !~ /^(memcpy|memmove|memset)$/ { print $2 }' | grep . && complain "the archive needs more of the C library"
exit $bad
