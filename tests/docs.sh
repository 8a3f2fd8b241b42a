#!/usr/bin/env bash
# The documents: docs/AUDIT.md has the list of the sources, no line is above 100 columns, and every link and every source file that is named
# is there; docs/PROMISES.md names every must-fail edit.
test=docs
# shellcheck source=tests/asserts.bash
source "$(dirname "${BASH_SOURCE[0]}")/asserts.bash"
if command -v python3 >/dev/null; then
    python3 docs/reading.py --check || complain "docs/AUDIT.md is not that of the sources"
else
    echo "no python3: docs/AUDIT.md is not held to the sources"
fi
for file in README.md docs/AUDIT.md docs/GUIDE.md; do
    LC_ALL=C.UTF-8 grep -nE '.{101}' "$file" && complain "lines above 100 columns in $file"
    grep -o ']([^)#]*)' "$file" | tr -d '()]' | while read -r link; do
        [ -e "$(dirname "$file")/$link" ] || echo "$file: no $link"
    done | grep . && complain "links that lead nowhere"
done
grep -ohE '\b[a-z_]+/(src|specs|proofs)/[A-Za-z_]+\.(rt|antt)' README.md docs/AUDIT.md docs/GUIDE.md | sort -u | while read -r file; do
    [[ $file = */NAME.* ]] || [ -e "crates/$file" ] || echo "no crates/$file"
done | grep . && complain "source files that are not there"
for edit in crates/*/must-fail/*.edit; do
    name=$(basename "$edit" .edit)
    grep -qF "\`$name\`" docs/PROMISES.md || echo "docs/PROMISES.md does not name $edit"
done | grep . && complain "edits that no promise names"
exit $bad
