#!/bin/sh
# Restores one dump, and writes one line of it: the dump's name, the status, and the ratio or why there is none.
# usage: one.sh PROGRAM NETLIST DUMP [FOLDER]; with FOLDER the table is kept there, as FOLDER/NAME.table
# A dump NAME.gz is unpacked first. A blank in a name is written as _.
name=$(basename "$3" | tr ' \t' '__')
room=$(mktemp -d) || exit 2
trap 'rm -rf "$room"' EXIT
dump=$3
case $name in
*.gz)
    dump=$room/dump
    gzip -dc "$3" >"$dump" 2>/dev/null || {
        echo "$name 5 not unpacked"
        exit
    }
    ;;
esac
"$1" restore "$2" "$dump" >"$room/table"
status=$?
if [ $status -eq 0 ]; then
    # The table's last line: # traced N known M ratio R
    said=$(tail -n 1 "$room/table" | cut -d ' ' -f 2-)
    if [ -n "${4-}" ] && ! cp "$room/table" "$4/$name.table"; then
        status=6 said='the table was not kept'
    fi
else
    said=$(head -c 400 "$room/table" | head -n 1)
fi
echo "$name $status $said"
