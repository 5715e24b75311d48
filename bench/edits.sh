#!/bin/sh
# Tries the must-fail edits of the crates NAME.., those that the gate tries (*.edit) and the further ones beside them
# (*.edit.md), and prints which of them the prover refuses. Ends with status 1 where one isn't refused.
#
#     bench/edits.sh [NAME..]
#
# First it looks, in every crate, whether each edit can be applied: whether what it replaces stands exactly once in its
# file. With no NAME that is all it does, and it needs no prover. The edits are tried in a copy of the repository, below
# $TMPDIR, so one can go on meanwhile; the copy goes at the end.
set -u
cd "$(dirname "$0")/.." || exit 1

python3 - <<'PYTHON' || exit 1
import glob
import os
import sys


def fault_of(edit):
    """Why an edit can't be applied, or None: each pair of lines `old:` and `new:` replaces what stands once in the
    file that the line `file:` before it names."""
    crate, texts, place, old, pairs = os.path.dirname(os.path.dirname(edit)), {}, None, None, 0
    for line in open(edit, encoding="utf-8").read().split("\n"):
        word, _, text = line.partition(":")
        text = text[1:] if text.startswith(" ") else text
        if word == "file":
            place = os.path.join(crate, text.strip())
            if not os.path.isfile(place):
                return "there is no %s" % place
            texts.setdefault(place, open(place, encoding="utf-8").read())
        elif word == "old":
            old = text
        elif word == "new":
            if place is None or not old:
                return "a line `new:` without `file:` and `old:` before it"
            count = texts[place].count(old)
            if count != 1:
                return "stands %d times in %s: %s" % (count, place, old)
            texts[place], old, pairs = texts[place].replace(old, text), None, pairs + 1
    return None if pairs else "no `old:` and `new:`"


edits = sorted(glob.glob("crates/*/must-fail/*.edit") + glob.glob("crates/*/must-fail/*.edit.md"))
faults = [(edit, fault) for edit, fault in ((edit, fault_of(edit)) for edit in edits) if fault]
for edit, fault in faults:
    print("%s: %s" % (edit, fault))
print("edits %d, of which the gate tries %d; %d can't be applied"
      % (len(edits), sum(edit.endswith(".edit") for edit in edits), len(faults)))
sys.exit(1 if faults else 0)
PYTHON
[ $# -eq 0 ] && exit 0

for name; do
    [ -d "crates/$name/src" ] || {
        echo "edits.sh: no crate $name" >&2
        exit 1
    }
done
copy=$(mktemp -d) || exit 1
trap 'rm -rf "$copy"' EXIT
trap 'exit 130' INT TERM
tar -cf - --exclude=out --exclude=.git . | tar -xf - -C "$copy" || exit 1
cd "$copy" || exit 1
for folder in crates/*/must-fail; do
    crate=${folder#crates/}
    crate=${crate%/must-fail}
    case " $* " in
        *" $crate "*)
            for edit in "$folder"/*.edit.md; do
                [ -f "$edit" ] && mv "$edit" "${edit%.md}"
            done
            ;;
        *) rm -r "$folder" ;;
    esac
done
rt must-fail "$@"
