#!/usr/bin/env bash
# make install: the files below PREFIX, a program built against them by pkg-config outside of the tree, the installed programs, one
# version everywhere, and make uninstall.
test=install
# shellcheck source=tests/asserts.bash
source "$(dirname "${BASH_SOURCE[0]}")/asserts.bash"
prefix=$dir/usr
make -s install PREFIX="$prefix" >"$dir/out" 2>&1 || { cat "$dir/out"; echo "make install fails"; exit 1; }
! make -n all | grep -q vectors || complain "make builds vectors, which is a test"
expected='bin/oyinkafubo-front
bin/oyinkafubo-spool
include/oyinkafubo.h
include/oyinkafubo_text.h
lib/liboyinkafubo.a
lib/pkgconfig/oyinkafubo.pc'
[ "$(cd "$prefix" && find . -type f | sed 's|^\./||' | LC_ALL=C sort)" = "$expected" ] || complain "other files are installed"

# the example, built against the installed files alone
export PKG_CONFIG_PATH=$prefix/lib/pkgconfig
cp examples/front.c "$dir"
# shellcheck disable=SC2046
(cd "$dir" && cc -std=c89 -Wall -Wextra -Wpedantic -Werror front.c $(pkg-config --cflags --libs oyinkafubo) -o front) ||
    complain "the example does not build against the installed files"
(cd / && "$dir/front" --raw) >"$dir/bytes" || complain "the example does not run"
[ "$( (cd / && "$prefix/bin/oyinkafubo-spool") <"$dir/bytes")" = $'395\nwhole' ] || complain "the installed spool program gives other lines"
(cd / && "$prefix/bin/oyinkafubo-front" --raw) | cmp -s - "$dir/bytes" || complain "the installed front end gives other bytes"

# either header alone, in C and in C++, with no function of it used
for header in oyinkafubo.h oyinkafubo_text.h; do
    echo "#include <$header>" >"$dir/alone.c"
    for compiler in "cc -std=c89" "c++ -x c++"; do
        command -v "${compiler%% *}" >/dev/null || continue
        # shellcheck disable=SC2046,SC2086
        $compiler -Wall -Wextra -Wpedantic -Werror -fsyntax-only $(pkg-config --cflags oyinkafubo) "$dir/alone.c" ||
            complain "$header does not compile alone: $compiler"
    done
done

# one version: the header's text, pkg-config's and cargo's
printf '#include <oyinkafubo.h>\n#include <stdio.h>\nint main(void) { return puts(OYINKAFUBO_VERSION) < 0; }\n' >"$dir/version.c"
# shellcheck disable=SC2046
cc $(pkg-config --cflags oyinkafubo) "$dir/version.c" -o "$dir/version" || complain "OYINKAFUBO_VERSION is no text"
version=$("$dir/version")
[[ $version =~ ^[0-9]+\.[0-9]+\.[0-9]+$ ]] || complain "the header's version is $version"
[ "$(pkg-config --modversion oyinkafubo)" = "$version" ] || complain "pkg-config has another version than the header, $version"
grep -qx "version = \"$version\"" host/Cargo.toml || complain "host/Cargo.toml has another version than the header, $version"

make -s uninstall PREFIX="$prefix" || complain "make uninstall fails"
[ -z "$(find "$prefix" -type f)" ] || complain "make uninstall leaves files"
exit $bad
