#!/bin/sh
# Prints who has to confirm a group's members: a line for each group whose attestation is due, overdue or never came.
#
#     reminders.sh JOURNAL
#
# It asks a copy of the journal, which may be served meanwhile. The program is `registry`, or what PROGRAM names. Ends with
# the program's status, or with 1 where the journal can't be copied.
set -u
[ $# -eq 1 ] || {
    echo "usage: reminders.sh JOURNAL" >&2
    exit 2
}
copy=$(mktemp) || exit 1
trap 'rm -f "$copy"' EXIT
cp -- "$1" "$copy" || exit 1
"${PROGRAM:-registry}" "$copy" reminders
