#!/bin/sh
# Refuses the allocations of proved programs one at a time, the first, then the second and so on, until a run asks for no more.
# - worked_rows shows the values of a call that wants memory before and behind it, and makes the call again: no row may come out as
#   another than it is, but by a line MEMORY. Of a session it drives the events too: the event for which memory was wanting is done again.
# - The program, on a session of examples/ or of wanting.rows, must write the listing of a whole number of its events and end with status
#   3, or write all of it; a run writes never less than one in which an earlier allocation is refused, and the last that wants memory all
#   but at most one event's.
# It needs a C compiler, ./mvt (make mvt) and worked_rows as the gate built it.
# Usage: tests/refused_memory.sh

cd "$(dirname "$0")/.." || exit 2
work=$(mktemp -d) || exit 2
trap 'rm -rf "$work"' EXIT

# The allocation of number FAIL_ALLOC is refused, and a byte is written to the file 9.
cat >"$work/refuse.c" <<'END'
#include <stdlib.h>
#include <unistd.h>

extern void *__libc_malloc(size_t);
extern void *__libc_realloc(void *, size_t);

static unsigned long asked, refused;

static int is_refused(void) {
    if (!refused) {
        char *number = getenv("FAIL_ALLOC");
        refused = number ? strtoul(number, 0, 10) : -1UL;
    }
    asked++;
    return asked == refused && write(9, "x", 1) == 1;
}

void *malloc(size_t size) { return is_refused() ? 0 : __libc_malloc(size); }
void *realloc(void *old, size_t size) { return is_refused() ? 0 : __libc_realloc(old, size); }
END
${CC:-cc} -shared -fPIC -O1 -o "$work/refuse.so" "$work/refuse.c" || exit 2

# Runs a command with its allocation of this number refused; work/told is empty where it has no such allocation.
refusing() {
    number=$1
    shift
    : >"$work/told"
    FAIL_ALLOC=$number LD_PRELOAD=$work/refuse.so "$@" <"$input" >"$work/out" 2>"$work/err" 9>"$work/told"
}

if [ ! -x ./mvt ]; then
    echo "./mvt is not there: make mvt builds it"
    exit 2
fi
failed=0

program=$PWD/crates/worked_rows/out/worked_rows
tables=crates/worked_rows/data
if [ ! -x "$program" ]; then
    echo "$program is not there: make test builds it"
    exit 2
fi

# The rows of a table: TOPIC TABLE STEP NAME tries each STEPth allocation.
try_table() {
    input=/dev/null
    number=1
    while refusing "$number" "$program" "$1" "$2"; status=$?; [ -s "$work/told" ]; do
        if [ $status -gt 3 ] || grep -qx CHANGED "$work/err" || { grep -qx -e '-- came' "$work/err" && ! grep -qx MEMORY "$work/err"; }; then
            echo "$1: $4: allocation $number: status $status"
            cat "$work/err"
            failed=1
        fi
        number=$((number + $3))
    done
    echo "$1: $4: of $((number - 1)) allocations one in $3 was refused in turn"
}

for table in volumes catalog groups extents records mounted; do try_table volumes $tables/volumes/$table.rows 1 $table; done
try_table machine $tables/machine/places.rows 1 places
try_table stores $tables/stores/stores.rows 7 stores
try_table sessions $tables/sessions/configurations.rows 7 configurations

# How many bytes the events of the session list: the first, the first two, and so on.
sizes_of() {
    awk '$2 == "TURN" || $2 == "WRITE" {n = split($3, it, "*") > 1 ? it[2] : 1; for (k = 0; k < n; k++) print $1, $2, it[1]; next} {print}' "$input" >"$work/events"
    lines=$(wc -l <"$work/events")
    line=0
    while [ "$line" -le "$lines" ]; do
        # shellcheck disable=SC2086
        head -n "$line" "$work/events" | ./mvt $options 2>/dev/null | wc -c
        line=$((line + 1))
    done | sort -nu
}

# The program on a session: NAME LISTING.
try_session() {
    sizes_of >"$work/sizes"
    number=1
    most=0
    while :; do
        # shellcheck disable=SC2086
        refusing $number ./mvt $options
        status=$?
        size=$(wc -c <"$work/out")
        if [ ! -s "$work/told" ]; then break; fi
        if [ $status -eq 3 ]; then
            if [ "$size" -lt "$most" ]; then
                echo "$1: allocation $number: $size bytes, and $most with an earlier one refused"
                failed=1
            fi
            most=$size
            if ! grep -qx "$size" "$work/sizes"; then
                echo "$1: allocation $number: $size bytes are no whole number of events"
                failed=1
            fi
        fi
        if ! cmp -s "$work/out" "$2"; then
            if [ $status -ne 3 ] || ! head -c "$size" "$2" | cmp -s "$work/out" -; then
                echo "$1: allocation $number: status $status and no beginning of its listing"
                failed=1
            fi
        fi
        number=$((number + 1))
    done
    if ! cmp -s "$work/out" "$2"; then
        echo "$1: its listing differs though nothing is refused"
        failed=1
    fi
    if [ "$most" -lt "$(tail -n 2 "$work/sizes" | head -n 1)" ]; then
        echo "$1: at the last allocation more than one event's lines are wanting"
        failed=1
    fi
    echo "$1: $((number - 1)) allocations refused in turn, with up to $most bytes of the listing"
}

# Each row of wanting.rows in a table of its own, and its session with the program.
mkdir "$work/rows"
awk -v folder="$work/rows" '/^== /{name = sprintf("%s/%02d", folder, ++count)} count {print >name}' $tables/sessions/wanting.rows
for row in "$work"/rows/*; do
    try_table sessions "$row" 1 "$(head -n 1 "$row")"
    sed '1d; /^=>$/,$d; /^!/d' "$row" >"$work/session"
    sed '1,/^=>$/d; /^$/d' "$row" >"$work/listing"
    options=$(sed -n 's/^!\(risk [a-z]*\|views [0-9]*\|explain\)$/--\1/p' "$row")
    input=$work/session
    try_session "$(head -n 1 "$row")" "$work/listing"
done

options=
for input in examples/*.session; do
    try_session "$input" "${input%.session}.listing"
done
exit $failed
