#!/usr/bin/env bash
# Measures the decoder on streams of messages of 1 triple and of 100 triples: megabytes a second, and beside it those of
# expat's xmlwf on the same bytes (within one element, since a document has one root), each the best of five runs. It is no
# part of the gate.
cd "$(dirname "$0")/.." || exit 1
program="crates/count_messages/out/count_messages"
if [ ! -x "$program" ]; then
    echo "bench: skipped, since there is no $program"
    exit 0
fi
scratch="$(mktemp -d)" || exit 1
trap 'rm -rf "$scratch"' EXIT

# So many messages of so many triples.
stream() {
    awk -v messages="$1" -v triples="$2" 'BEGIN {
        for (i = 0; i < messages; i++) {
            printf "<SSAP_message><node_id>sensor-%d</node_id><space_id>building</space_id>", i % 50
            printf "<transaction_type>INSERT</transaction_type><message_type>REQUEST</message_type><transaction_id>%d</transaction_id>", i
            printf "<parameter name=\"insert_graph\" encoding=\"RDF-M3\"><triple_list>"
            for (j = 0; j < triples; j++) {
                printf "<triple><subject type=\"uri\">http://example.org/room/%d</subject>", j
                printf "<predicate>http://example.org/temperature</predicate><object type=\"literal\">%d degrees</object></triple>", i % 40
            }
            printf "</triple_list></parameter></SSAP_message>\n"
        }
    }'
}

# The seconds of the fastest of five runs of a command over a file.
fastest() {
    local file="$1"
    shift
    for _ in 1 2 3 4 5; do
        local before after
        before="$(date +%s%N)"
        "$@" <"$file" >"$scratch/said" || exit 1
        after="$(date +%s%N)"
        echo $((after - before))
    done | sort -n | head -n 1
}

rate() { awk -v bytes="$1" -v nanoseconds="$2" 'BEGIN { printf "%.0f", bytes * 1000 / nanoseconds }'; }

for shape in "100000 1" "2000 100"; do
    read -r messages triples <<<"$shape"
    stream "$messages" "$triples" >"$scratch/stream"
    size="$(stat -c %s "$scratch/stream")"
    ours="$(fastest "$scratch/stream" "$program")" || exit 1
    if [ "$("$program" <"$scratch/stream")" != "ok $messages" ]; then
        echo "bench: the stream of $messages messages was not read as one"
        exit 1
    fi
    line="bench: $messages messages of $triples triples, $(rate "$size" "$ours") MB/s"
    if command -v xmlwf >/dev/null; then
        { echo "<stream>"; cat "$scratch/stream"; echo "</stream>"; } >"$scratch/document"
        theirs="$(fastest "$scratch/document" xmlwf)" || exit 1
        line="$line; expat $(rate "$size" "$theirs") MB/s"
    else
        line="$line; no xmlwf to compare with"
    fi
    echo "$line"
done
