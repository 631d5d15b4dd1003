#!/bin/sh
# Restores every dump of a folder on this machine, as many at a time as there are processors. A line a dump, in the order of
# their names: name, status, and the ratio or the contradiction or refusal. The last line counts.
# usage: folder.sh NETLIST FOLDER [TABLES]; in the folder TABLES, where it is given, the tables are kept
# PROGRAM is the built program (crates/srestore/out/srestore of this checkout where it is not set), JOBS how many at a time.
set -u
here=$(cd "$(dirname "$(readlink -f "$0")")" && pwd)
program=${PROGRAM:-$here/../../crates/srestore/out/srestore}
fail() {
    echo "folder.sh: $1" >&2
    exit 2
}

[ $# -ge 2 ] || fail 'usage: folder.sh NETLIST FOLDER [TABLES]'
[ -x "$program" ] || fail "$program is not built: bin/build builds it"
[ -r "$1" ] || fail "$1 cannot be read"
[ -d "$2" ] || fail "$2 is no folder"
[ -z "${3-}" ] || mkdir -p "$3" || fail "$3 cannot be made"
# xargs ends with 123 where a call ended with another status than 0; the statuses are in the lines.
find "$2" -maxdepth 1 -type f \( -name '*.dump' -o -name '*.dump.gz' \) -print0 |
    xargs -0 -r -n 1 -P "${JOBS:-$(nproc)}" sh -c '"$1/one.sh" "$2" "$3" "$5" "$4"' - "$here" "$program" "$1" "${3-}" |
    LC_ALL=C sort |
    awk '{ print; count[$2]++; all++ }
        END { printf "%d dumps:", all; for (s = 0; s < 256; s++) if (s in count) printf " %d with status %d", count[s], s; print "" }'
