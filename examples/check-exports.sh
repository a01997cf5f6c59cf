#!/bin/sh
# Checks an exports file before it takes the place of another one, for CI: it must have no fault and keep what is expected of it,
# and what it changes for clients is shown.
#
#   examples/check-exports.sh OLD NEW EXPECTATIONS MOUNT..
#
# OLD and NEW are exports files, EXPECTATIONS has a line for each promise (as examples/expectations has for examples/exports), and
# MOUNT.. are the mount points of the file systems. TABLES has the options of exportdesk for tables, if there are some:
# TABLES='--hosts hosts --netgroup netgroup'.
#
# It ends with the status of exportdesk: 0 if all is well, also if something changes; 1 if an expectation is broken; 2 if a word is
# wrong or a file cannot be read; 3 if a text has a fault, or one of the warnings 1 to 8, 11, 12 and 14: a word or a line that does
# not do what it seems to, or by which mountd(8) does something else. With STRICT= (empty) these do not count.

set -eu

if [ $# -lt 4 ]; then
    sed -n 's/^#   //p' "$0" >&2
    exit 2
fi
old=$1 new=$2 expectations=$3
strict=${STRICT-yes}
shift 3

# shellcheck disable=SC2086 # (TABLES are several words)
{
    exportdesk check "$new" "$@" ${TABLES-} ${strict:+--strict}
    exportdesk test "$new" "$expectations" "$@" ${TABLES-}
    status=0
    exportdesk compare "$old" "$new" "$@" ${TABLES-} || status=$?
}
# What changes is for whoever reads this.
[ "$status" -eq 1 ] || exit "$status"
