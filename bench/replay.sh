#!/usr/bin/env bash
# Measures the built program on scripts of one JOIN and N INSERTs of 100 distinct triples over 50 links in turn: the bytes
# of the script, the seconds, the megabytes a second, and the most memory. The memory must not grow with N. It is no part
# of the gate.
cd "$(dirname "$0")/.." || exit 1
program="crates/sib/out/sib"
if [ ! -x "$program" ] || [ ! -x /usr/bin/time ]; then
    echo "bench: skipped, since there is no $program or no /usr/bin/time"
    exit 0
fi
scratch="$(mktemp -d)" || exit 1
trap 'rm -rf "$scratch"' EXIT

# A script of so many INSERTs.
script() {
    awk -v count="$1" '
        function message(kind, number, parameter) {
            return "<SSAP_message><message_type>REQUEST</message_type><transaction_type>" kind "</transaction_type>" \
                "<transaction_id>" number "</transaction_id><node_id>k</node_id><space_id>X</space_id>" parameter "</SSAP_message>"
        }
        function deliver(link, bytes) { printf ">%d %d\n%s\n", link, length(bytes), bytes }
        BEGIN {
            for (i = 0; i < 50; i++)
                print "+"
            deliver(1, message("JOIN", 1, ""))
            for (i = 0; i < count; i++)
                deliver(i % 50 + 1, message("INSERT", i + 2, "<parameter name=\"insert_graph\" encoding=\"RDF-M3\"><triple_list><triple>" \
                    "<subject type=\"uri\">lamp" (i % 100) "</subject><predicate>state</predicate>" \
                    "<object type=\"literal\">on</object></triple></triple_list></parameter>"))
        }'
}

for count in 1000 10000 100000; do
    script "$count" >"$scratch/script"
    size="$(stat -c %s "$scratch/script")"
    last="$(/usr/bin/time -f '%e %M' -o "$scratch/cost" "$program" replay X <"$scratch/script" | tail -n 1)"
    if [ "$last" != "= $count 100 0" ]; then
        echo "bench: $count INSERTs ended with the line '$last'"
        exit 1
    fi
    read -r seconds memory <"$scratch/cost"
    awk -v n="$count" -v b="$size" -v s="$seconds" -v m="$memory" 'BEGIN {
        rate = s > 0 ? sprintf("%.0f MB/s", b / s / 1e6) : "too short to tell"
        printf "bench: %d INSERTs, %.1f MB, %.2f s, %s, %d KiB of memory\n", n, b / 1e6, s, rate, m
    }'
done
