#!/usr/bin/env bash
# Measures the built program on a graph of numbers: 262,144 distinct triples inserted by 256 requests of 1,024, and over them
# 10,000 UPDATEs that exchange one triple each, 10,000 QUERYs for the triples of one subject each, or one REMOVE of
# everything; and the same over 1,024 triples. It prints the processor seconds of each part, which is the time of the
# script with it less that of the script without it, each the best of three, and the most memory. It is no part of the gate.
cd "$(dirname "$0")/.." || exit 1
program="crates/sib/out/sib"
if [ ! -x "$program" ] || [ ! -x /usr/bin/time ]; then
    echo "bench: skipped, since there is no $program or no /usr/bin/time"
    exit 0
fi
scratch="$(mktemp -d)" || exit 1
trap 'rm -rf "$scratch"' EXIT

# A script of so many requests that insert 1,024 triples each, of so many exchanges, of so many queries, and of so many
# removals of everything.
script() {
    awk -v requests="$1" -v exchanges="$2" -v queries="$3" -v removals="$4" '
        function triple(number, value) {
            return "<triple><subject type=\"uri\">room" number "</subject><predicate>temperature</predicate>" \
                "<object type=\"literal\">" value "</object></triple>"
        }
        function template(subject) {
            return "<triple><subject type=\"uri\">" subject "</subject><predicate>sib:any</predicate>" \
                "<object type=\"uri\">sib:any</object></triple>"
        }
        function graph(name, triples) {
            return "<parameter name=\"" name "\" encoding=\"RDF-M3\"><triple_list>" triples "</triple_list></parameter>"
        }
        function message(kind, parameters) {
            return "<SSAP_message><message_type>REQUEST</message_type><transaction_type>" kind "</transaction_type>" \
                "<transaction_id>" ++id "</transaction_id><node_id>k</node_id><space_id>X</space_id>" parameters "</SSAP_message>"
        }
        # The bytes of a message in deliveries of at most 65,536.
        function deliver(bytes,    at) {
            for (at = 1; at <= length(bytes); at += 65536)
                printf ">1 %d\n%s\n", length(substr(bytes, at, 65536)), substr(bytes, at, 65536)
        }
        BEGIN {
            print "+"
            deliver(message("JOIN", ""))
            for (i = 0; i < requests; i++) {
                triples = ""
                for (j = 0; j < 1024; j++)
                    triples = triples triple(i * 1024 + j, "20")
                deliver(message("INSERT", graph("insert_graph", triples)))
            }
            for (i = 0; i < exchanges; i++) {
                room = (i * 7919) % (requests * 1024)
                deliver(message("UPDATE", graph("insert_graph", triple(room, i % 2 ? "20" : "21")) \
                    graph("remove_graph", triple(room, i % 2 ? "21" : "20"))))
            }
            for (i = 0; i < queries; i++)
                deliver(message("QUERY", "<parameter name=\"type\">RDF-M3</parameter><parameter name=\"query\"><triple_list>" \
                    template("room" (i * 7919) % (requests * 1024)) "</triple_list></parameter>"))
            for (i = 0; i < removals; i++)
                deliver(message("REMOVE", graph("remove_graph", template("sib:any"))))
        }'
}

# Runs a script three times, and gives the fewest processor seconds, and its memory.
run() {
    script "$@" >"$scratch/script"
    for _ in 1 2 3; do
        /usr/bin/time -f '%U %S %M' -a -o "$scratch/cost" "$program" replay X <"$scratch/script" | tail -n 1 >"$scratch/last"
    done
    read -r seconds memory < <(awk '{ print $1 + $2, $3 }' "$scratch/cost" | sort -g | head -n 1)
    rm "$scratch/cost"
}

# Says what a part takes, as the difference of two times.
say() {
    awk -v what="$1" -v with="$2" -v without="$3" -v each="$4" -v m="$5" 'BEGIN {
        printf "bench: %s: %.2f s", what, with - without
        if (each > 0) printf ", %.0f microseconds each", (with - without) / each * 1e6
        printf ", %d KiB of memory\n", m
    }'
}

for requests in 1 256; do
    run "$requests" 0 0 0
    filled="$seconds"
    say "$((requests * 1024)) triples inserted by $requests requests" "$filled" 0 0 "$memory"
    run "$requests" 10000 0 0
    say "10000 exchanges of one triple over them" "$seconds" "$filled" 10000 "$memory"
    run "$requests" 0 10000 0
    say "10000 queries for the triples of one subject" "$seconds" "$filled" 10000 "$memory"
    run "$requests" 0 0 1
    say "all of them removed by one wildcard (last line $(cat "$scratch/last"))" "$seconds" "$filled" 0 "$memory"
done
