#!/usr/bin/env bash
# Measures `check`, `show` and `make` at two sizes each: seconds, megabytes a second, and the most memory, each of the best of five
# runs. The memory must not grow with the size. Beside `check` stands expat's xmlwf on the same bytes, within one root element, since a
# document has one root. xmlwf checks that a document is well-formed; `check` also reads each message by its grammar. It is no part of
# the gate.
#
# SIB names another program than the built one.
cd "$(dirname "$0")/.." || exit 1
program="$(realpath -m "${SIB:-crates/sib/out/sib}")"
if [ ! -x "$program" ] || [ ! -x /usr/bin/time ]; then
    echo "streams: skipped, since there is no $program or no /usr/bin/time"
    exit 0
fi
scratch="$(mktemp -d)" || exit 1
trap 'rm -rf "$scratch"' EXIT
failed=0

# So many messages of so many triples.
stream() {
    awk -v messages="$1" -v triples="$2" 'BEGIN {
        for (i = 0; i < messages; i++) {
            printf "<SSAP_message><node_id>sensor-%d</node_id><space_id>building</space_id>", i % 50
            printf "<transaction_type>INSERT</transaction_type><message_type>REQUEST</message_type><transaction_id>%d</transaction_id>", i
            printf "<parameter name=\"insert_graph\" encoding=\"RDF-M3\"><triple_list>"
            for (j = 0; j < triples; j++) {
                printf "<triple><subject type=\"uri\">http://example.org/room/%d</subject>", j
                printf "<predicate>http://example.org/temperature</predicate><object type=\"literal\">%d degrees</object></triple>", i % 40
            }
            printf "</triple_list></parameter></SSAP_message>\n"
        }
    }'
}

# Runs a command five times over a file. Its seconds and the most memory of the fastest run stand in `seconds` and `memory`, its output
# in the file `said`.
fastest() {
    local file="$1"
    shift
    rm -f "$scratch/costs"
    for _ in 1 2 3 4 5; do
        /usr/bin/time -f '%e %M' -a -o "$scratch/costs" "$@" <"$file" >"$scratch/said" || exit 1
    done
    read -r seconds memory < <(sort -n "$scratch/costs" | head -n 1)
}

# A line on the last measure, over so many bytes.
tell() {
    awk -v what="$1" -v bytes="$2" -v seconds="$seconds" -v memory="$memory" 'BEGIN {
        rate = seconds > 0 ? sprintf("%.0f MB/s", bytes / seconds / 1e6) : "too short to tell"
        printf "%s: %.1f MB, %.2f s, %s, %d KiB of memory\n", what, bytes / 1e6, seconds, rate, memory
    }'
}

# Whether the memory of a greater size is about that of the lesser one: at most a half and 1 MiB more.
grows() {
    if [ "$2" -gt $(($1 + $1 / 2 + 1024)) ]; then
        echo "streams: the memory of $3 grows: $1 KiB and then $2 KiB"
        failed=1
    fi
}

# One shape of messages, at two sizes.
measure() {
    local triples="$1" check_before=0 show_before=0 messages size
    shift
    for messages in "$@"; do
        stream "$messages" "$triples" >"$scratch/stream"
        size="$(stat -c %s "$scratch/stream")"
        fastest "$scratch/stream" "$program" check
        if [ "$(cat "$scratch/said")" != "ok $messages" ]; then
            echo "streams: the stream of $messages messages was not read as one"
            exit 1
        fi
        tell "check, $messages messages of $triples triples" "$size"
        [ "$check_before" -eq 0 ] || grows "$check_before" "$memory" "check"
        check_before="$memory"
        fastest "$scratch/stream" "$program" show
        tell "show, $messages messages of $triples triples" "$size"
        [ "$show_before" -eq 0 ] || grows "$show_before" "$memory" "show"
        show_before="$memory"
        if command -v xmlwf >"$scratch/none"; then
            { echo "<stream>"; cat "$scratch/stream"; echo "</stream>"; } >"$scratch/document"
            fastest "$scratch/document" xmlwf
            [ ! -s "$scratch/said" ] || { echo "streams: xmlwf refuses the document: $(cat "$scratch/said")"; exit 1; }
            tell "    xmlwf, the same within one root" "$size"
        else
            echo "    xmlwf: skipped, since it is not there (Debian's package expat)"
        fi
    done
}

measure 1 20000 200000
measure 100 400 4000

make_before=0
for updates in 1000 10000; do
    fastest /dev/null "$program" make "$updates"
    tell "make $updates" "$(stat -c %s "$scratch/said")"
    [ "$make_before" -eq 0 ] || grows "$make_before" "$memory" "make"
    make_before="$memory"
done
exit "$failed"
