#!/usr/bin/env bash
# Measures the built program on queries in SPARQL, each over a graph of its own: stars of three patterns with one answer each over
# 100,000 triples, by their subject and by a name; a join of two groups of 30,000 solutions on one variable, of which 5,000 join;
# an OPTIONAL over 26,000 left solutions of which half match; and a FILTER with CONTAINS over 65,000 texts, of which 500 pass. More
# of each would pass the limit on the width of a query. It prints the processor seconds of the queries, which is the time of the
# script with them less that without them, the best of three. Where python3 has rdflib, it is given the same triples
# and the same queries, in the same run. It is no part of the gate.
cd "$(dirname "$0")/.." || exit 1
program="crates/sib/out/sib"
if [ ! -x "$program" ] || [ ! -x /usr/bin/time ]; then
    echo "bench: skipped, since there is no $program or no /usr/bin/time"
    exit 0
fi
scratch="$(mktemp -d)" || exit 1
trap 'rm -rf "$scratch"' EXIT

# The triples of a graph, one a line: subject, predicate and the text of a literal, with tabs between.
triples() {
    awk -v kind="$1" '
        function put(subject, predicate, object) { printf "%s\t%s\t%s\n", subject, predicate, object }
        BEGIN {
            if (kind == "star")
                for (i = 0; i < 33333; i++) {
                    put("room" i, "name", "n" i); put("room" i, "state", "on"); put("room" i, "temperature", i % 40)
                }
            if (kind == "join")
                for (i = 0; i < 30000; i++) { put("x" i, "a", "1"); put("x" i + 25000, "b", "2") }
            if (kind == "optional")
                for (i = 0; i < 26000; i++) { put("x" i, "a", "1"); if (i % 2) put("x" i, "b", "2") }
            if (kind == "filter")
                for (i = 0; i < 65000; i++)
                    put("x" i, "text", "a text of some words, number " i (i % 130 ? "" : " with a needle") " and a few more")
        }'
}

# So many queries of a kind, one a line.
queries() {
    awk -v kind="$1" -v count="$2" '
        BEGIN {
            for (i = 0; i < count; i++) {
                room = (i * 7919) % 33333
                if (kind == "subject")
                    print "SELECT DISTINCT ?n ?t { <room" room "> <name> ?n . <room" room "> <state> \"on\" . <room" room "> <temperature> ?t }"
                if (kind == "star")
                    print "SELECT DISTINCT ?r ?t { ?r <name> \"n" room "\" . ?r <state> \"on\" . ?r <temperature> ?t }"
                if (kind == "join") print "SELECT DISTINCT ?x { { ?x <a> ?y } { ?x <b> ?z } }"
                if (kind == "optional") print "SELECT DISTINCT ?x ?z { ?x <a> ?y OPTIONAL { ?x <b> ?z } }"
                if (kind == "filter") print "SELECT DISTINCT ?x { ?x <text> ?t FILTER CONTAINS(?t, \"needle\") }"
            }
        }'
}

# The script that inserts the triples of one file and asks the queries of another.
script() {
    awk -F '\t' -v asked="$2" '
        function escaped(text) { gsub(/&/, "\\&amp;", text); gsub(/</, "\\&lt;", text); gsub(/>/, "\\&gt;", text); return text }
        function message(kind, parameters) {
            return "<SSAP_message><message_type>REQUEST</message_type><transaction_type>" kind "</transaction_type>" \
                "<transaction_id>" ++id "</transaction_id><node_id>k</node_id><space_id>X</space_id>" parameters "</SSAP_message>"
        }
        function deliver(bytes,    at) {
            for (at = 1; at <= length(bytes); at += 65536)
                printf ">1 %d\n%s\n", length(substr(bytes, at, 65536)), substr(bytes, at, 65536)
        }
        function flush_graph() {
            if (graph != "")
                deliver(message("INSERT", "<parameter name=\"insert_graph\"><triple_list>" graph "</triple_list></parameter>"))
            graph = ""
        }
        BEGIN { print "+"; deliver(message("JOIN", "")) }
        {
            graph = graph "<triple><subject>" $1 "</subject><predicate>" $2 "</predicate><object type=\"literal\">" $3 "</object></triple>"
            if (NR % 1000 == 0) flush_graph()
        }
        END {
            flush_graph()
            while ((getline text < asked) > 0)
                deliver(message("QUERY", "<parameter name=\"type\">sparql</parameter><parameter name=\"query\">" escaped(text) "</parameter>"))
        }' "$1"
}

# The fewest processor seconds of three runs of a script.
seconds() {
    for _ in 1 2 3; do
        /usr/bin/time -f '%U %S' -a -o "$scratch/cost" "$program" replay X <"$1" >"$scratch/out"
    done
    awk '{ print $1 + $2 }' "$scratch/cost" | sort -g | head -n 1
    rm "$scratch/cost"
}

# Processor seconds of rdflib for the queries alone, and the rows of all answers.
cat >"$scratch/ask.py" <<'PYTHON'
import sys, time
from rdflib import Graph, Literal, URIRef
graph = Graph()
base = 'x:'
for line in open(sys.argv[1]):
    subject, predicate, text = line.rstrip('\n').split('\t')
    graph.add((URIRef(base + subject), URIRef(base + predicate), Literal(text)))
began, rows = time.process_time(), 0
for text in open(sys.argv[2]):
    rows += len(list(graph.query(text.replace('<', '<' + base))))
print('%.2f s, %d rows' % (time.process_time() - began, rows))
PYTHON

# A python3 that has rdflib, if there is one.
python=""
for one in python3 /usr/bin/python3; do
    if [ -z "$python" ] && "$one" -c 'import rdflib' 2>"$scratch/none"; then
        python="$one"
    fi
done

# One measure: its name, the kind of graph, the kind of query, how many queries, and how many of them rdflib is given.
measure() {
    triples "$2" >"$scratch/triples"
    queries "$3" "$4" >"$scratch/queries"
    : >"$scratch/none"
    script "$scratch/triples" "$scratch/none" >"$scratch/without"
    script "$scratch/triples" "$scratch/queries" >"$scratch/with"
    without="$(seconds "$scratch/without")"
    with="$(seconds "$scratch/with")"
    rows="$(grep -o '<result>' "$scratch/out" | wc -l)"
    echo "$1: $(awk -v a="$with" -v b="$without" 'BEGIN { printf "%.2f", a - b }') s for $4, $rows rows"
    if [ -n "$python" ]; then
        head -n "$5" "$scratch/queries" >"$scratch/some"
        echo "    rdflib, $5 of them: $("$python" "$scratch/ask.py" "$scratch/triples" "$scratch/some")"
    fi
}

measure "stars of three patterns, by their subject" star subject 20000 2000
measure "stars of three patterns, by a name" star star 2000 200
measure "a join of two groups of 30,000" join join 20 1
measure "an OPTIONAL over 26,000" optional optional 20 1
measure "a FILTER with CONTAINS over 65,000" filter filter 20 1
