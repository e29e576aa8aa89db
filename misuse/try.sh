#!/bin/sh
# Uses of the kernel that must not build: each edit is applied to a copy of the repository, and the compiler must
# refuse signing_day there with the error that the edit names; with no edit it must build. Run from the root. Nothing
# is proved here: `rt try` compiles a program and all below it from the sources, and runs it only where it compiles.
set -u
copy=$(mktemp -d)
trap 'rm -rf "$copy"' EXIT
tar -c --exclude='crates/*/out' crates.txt crates | tar -x -C "$copy"
if ! said=$(cd "$copy/crates/signing_day" && rt try 2>&1); then
    echo "signing_day does not build as it stands: $(printf '%s' "$said" | grep -m 1 'error')"
    exit 1
fi
failed=0
for edit in misuse/*.edit; do
    cp -r crates/signing_day/src/. "$copy/crates/signing_day/src"
    python3 - "$edit" "$copy/crates/signing_day" <<'PY'
import sys
fields = dict(line.rstrip('\n').split(': ', 1) for line in open(sys.argv[1]))
path = sys.argv[2] + '/' + fields['file']
text = open(path).read()
assert text.count(fields['old']) == 1, 'the old text stands %d times' % text.count(fields['old'])
open(path, 'w').write(text.replace(fields['old'], fields['new']))
PY
    wanted=$(sed -n 's/^error: //p' "$edit")
    said=$(cd "$copy/crates/signing_day" && rt try 2>&1)
    if [ $? -ne 0 ] && printf '%s' "$said" | grep -q '^run=none' && printf '%s' "$said" | grep -q -F "error[$wanted]"; then
        echo "$edit: refused: $(printf '%s' "$said" | grep -m 1 'error' | sed 's/.*error/error/' | cut -c 1-140)"
    else
        echo "$edit: NOT refused as it must be"
        failed=1
    fi
done
exit $failed
