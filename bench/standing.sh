#!/usr/bin/env bash
# Measures the built program on standing queries. "mixed": 50 of them, half by a template and half in SPARQL with OPTIONAL, over 40
# subjects, and 10,000 updates that each change ten answers or so. "many": 256 subscribers of one template, on 256 links, and 5,000
# updates that each tell all of them. It prints the indications, the processor seconds of the best of three runs, and how many
# indications that is in a second. Where a python3 has rdflib, it asks that for the same queries afresh after each of the first 200
# updates of "mixed" and takes the difference, as a program without standing queries would. It is no part of the gate.
cd "$(dirname "$0")/.." || exit 1
program="crates/sib/out/sib"
if [ ! -x "$program" ] || [ ! -x /usr/bin/time ]; then
    echo "bench: skipped, since there is no $program or no /usr/bin/time"
    exit 0
fi
scratch="$(mktemp -d)" || exit 1
trap 'rm -rf "$scratch"' EXIT

# What awk makes requests from.
spelling='
    function deliver(bytes) { printf ">%d %d\n%s\n", link, length(bytes), bytes }
    function message(kind, parameters) {
        return "<SSAP_message><message_type>REQUEST</message_type><transaction_type>" kind "</transaction_type>" \
            "<transaction_id>" ++id "</transaction_id><node_id>w</node_id><space_id>trial</space_id>" parameters "</SSAP_message>"
    }
    function triple(subject, predicate, type, object) {
        return "<triple><subject type=\"uri\">" subject "</subject><predicate>" predicate "</predicate>" \
            "<object type=\"" type "\">" object "</object></triple>"
    }
    function list(name, triples) { return "<parameter name=\"" name "\"><triple_list>" triples "</triple_list></parameter>" }
    function template(predicate) {
        return "<parameter name=\"type\">RDF-M3</parameter>" list("query", triple("sib:any", predicate, "uri", "sib:any"))
    }
    function change(inserted, removed) { return message("UPDATE", list("insert_graph", inserted) list("remove_graph", removed)) }
'

# 50 standing queries on one link, and so many updates.
mixed() {
    awk -v count="$1" "$spelling"'
        function text(a, b) {
            return "<parameter name=\"type\">sparql</parameter><parameter name=\"query\">SELECT DISTINCT ?s ?o ?z { ?s &lt;p" a \
                "&gt; ?o OPTIONAL { ?s &lt;p" b "&gt; ?z } }</parameter>"
        }
        BEGIN {
            link = 1
            print "+"
            deliver(message("JOIN", ""))
            for (k = 0; k < 50; k++)
                deliver(message("SUBSCRIBE", k % 2 ? text(k % 5, (k + 1) % 5) : template("p" k % 5)))
            for (j = 0; j < count; j++)
                deliver(change(triple("s" j % 40, "p" j % 5, "literal", "o" j % 11), triple("s" (j + 20) % 40, "sib:any", "uri", "sib:any")))
        }'
}

# 256 links with a subscription each to one template, and so many updates.
many() {
    awk -v count="$1" "$spelling"'
        BEGIN {
            for (link = 1; link <= 256; link++)
                print "+"
            link = 1
            deliver(message("JOIN", ""))
            for (link = 1; link <= 256; link++)
                deliver(message("SUBSCRIBE", template("state")))
            link = 1
            for (j = 0; j < count; j++)
                deliver(change(triple("lamp", "state", "literal", j % 2 ? "on" : "off"), triple("lamp", "sib:any", "uri", "sib:any")))
        }'
}

# The fewest processor seconds of three runs over a script.
seconds() {
    for _ in 1 2 3; do
        /usr/bin/time -f '%U %S' -o "$scratch/time" "$program" replay trial <"$1" >"$scratch/output" || exit 1
        awk '{ print $1 + $2 }' "$scratch/time"
    done | sort -n | head -n 1
}

measure() {
    local name="$1" updates="$2" best told
    "$name" "$updates" >"$scratch/script"
    best="$(seconds "$scratch/script")"
    told="$(grep -c '<message_type>INDICATION</message_type>' "$scratch/output")"
    awk -v name="$name" -v updates="$updates" -v best="$best" -v told="$told" 'BEGIN {
        printf "%s: %d updates, %d indications, %.2f s: %d indications a second, %.1f microseconds an update\n",
            name, updates, told, best, told / best, best * 1000000 / updates
    }'
}

measure mixed 10000
measure many 5000

# A python3 that has rdflib, if there is one.
python=""
for one in python3 /usr/bin/python3; do
    if [ -z "$python" ] && "$one" -c 'import rdflib' 2>"$scratch/none"; then
        python="$one"
    fi
done
if [ -z "$python" ]; then
    echo "rdflib: skipped, since python3 does not have it"
    exit 0
fi
"$python" - <<'PYTHON'
import time
from rdflib import Graph, Literal, URIRef
from rdflib.plugins.sparql import prepareQuery

def text(k):
    a, b = k % 5, (k + 1) % 5
    optional = "OPTIONAL { ?s <x:p%d> ?z }" % b if k % 2 else ""
    return "SELECT DISTINCT ?s ?o %s { ?s <x:p%d> ?o %s }" % ("?z" if k % 2 else "", a, optional)

queries = [prepareQuery(text(k)) for k in range(50)]
graph = Graph()
answers = [set() for _ in queries]
told, updates, begin = 0, 200, time.process_time()
for j in range(updates):
    graph.remove((URIRef("x:s%d" % ((j + 20) % 40)), None, None))
    graph.add((URIRef("x:s%d" % (j % 40)), URIRef("x:p%d" % (j % 5)), Literal("o%d" % (j % 11))))
    for k, query in enumerate(queries):
        answer = set(graph.query(query))
        told += answer != answers[k]
        answers[k] = answer
took = time.process_time() - begin
print("rdflib: %d updates, %d changed answers, %.2f s: %d a second, %.1f microseconds an update"
      % (updates, told, took, told / took, took * 1e6 / updates))
PYTHON
