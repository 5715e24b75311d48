#!/bin/sh
# Proves the program and every crate that it stands on, side by side, builds the program, and runs the session
# of README.md. It needs the kit's command rt on the PATH; what memory a crate takes is in docs/GATE.md. What is
# proved is kept on this machine: a second run, and the gate, prove none of it again. RT_JOBS=N in the environment
# takes N processors in place of all; some 5 GB lie in TMPDIR, or /tmp, until it ends.
set -u
cd "$(dirname "$0")" || exit 1
top=$(pwd)
program=$top/crates/registry/out/registry

stop() {
    echo "quickstart: $1" >&2
    exit 1
}

minutes() {
    echo $((($(date +%s) - began) / 60))
}

# The gate's own command, over what the program stands on: neither the gate's wrong bodies, which prove a crate
# twice, nor its worked examples.
copy() {
    mkdir "$copy"
    tar -c --exclude='crates/*/out' --exclude='crates/*/must-fail' --exclude=crates/worked HANDLES crates \
        | tar -x -C "$copy" || return 1
    grep -v '^worked:' crates.txt > "$copy/crates.txt"
}

# says how far it is: each crate that is proved, by the lines of the gate
told() {
    count=0
    while read -r line; do
        case $line in
            "rt: "*" proved" | "rt: "*" is kept: "*)
                count=$((count + 1))
                crate=${line#rt: }
                echo "   $count of $all, after $(minutes) minutes: ${crate%% *}" ;;
        esac
    done
}

# the session of README.md as a script that shows each command before it runs it
session() {
    awk '
        /^## / { here = ($0 == "## A session") }
        !here || !/^    / { next }
        { line = substr($0, 5) }
        inside { text = text "\n" line; if (line == inside) { inside = ""; put() }; next }
        line ~ /^\$ / {
            text = substr(line, 3)
            if (match(text, /<<[A-Z]+/)) inside = substr(text, RSTART + 2, RLENGTH - 2)
            else put()
        }
        function put() { print "cat <<\047SHOWN\047\n$ " text "\nSHOWN\n" text }
    ' README.md
}

command -v rt > /dev/null || stop "the kit's command rt is not on the PATH"
folder=$(mktemp -d) || stop "no folder for the session"
trap 'rm -rf "$folder"' EXIT
trap 'exit 130' INT TERM
log=$folder/log copy=$folder/copy
began=$(date +%s)

copy || stop "the crates were not copied to $copy"
all=$(grep -c '^[a-z]' "$copy/crates.txt")
echo "== Step 1 of 2: prove the program and the crates that it stands on, $all in all, and build it."
echo "   From nothing this took 121 minutes on four slow processors that had other work as well. Without it, slow"
echo "   processors take some 70 with four and 140 with two, put together from the crates' own times in docs/GATE.md;"
echo "   with nothing changed since, a few minutes."
(cd "$copy" && PYTHONUNBUFFERED=1 rt ci 2>&1) | tee "$log" | told
tail -1 "$log" | grep -q ', 0 failed$' || {
    grep -v ': proved$' "$log" | tail -20 >&2
    stop "not all of it was proved"
}
mkdir -p "${program%/*}" && cp "$copy/crates/registry/out/registry" "$program" || stop "the program was not built"
rm -rf "$copy"
echo "   All are proved, and the program is built, after $(minutes) minutes."

echo "== Step 2 of 2: the session of README.md. Its journal outlives each run of the program."
session > "$folder/session.sh"
(
    cd "$folder" || exit 1
    ln -s "$program" registry
    PATH=$folder:$PATH sh -e session.sh
) > "$folder/shown" 2>&1 || stop "the session ended with an error: $(tail -1 "$folder/shown")"
sed 's/^/   /' "$folder/shown"
[ "$(grep -c '^{"members":\["uni/ann"' "$folder/shown")" -eq 2 ] || stop "Ann's membership is not as README.md says"
[ "$(grep -c '^{"members":\["uni/ann","uni/bob"\],"ok":true}$' "$folder/shown")" -eq 1 ] || stop "Bob did not come by the table"
[ "$(grep -c '^{"members":\[\],"ok":true}$' "$folder/shown")" -eq 1 ] || stop "Ann's keys are not gone"
echo
echo "The program is $program. With a journal of your own:"
echo "    $program journal init"
echo "    $program journal apply < lines"
