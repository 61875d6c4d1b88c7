#!/usr/bin/env bash
# Measures `sib trial 10000`: 50 standing queries, half by a template and half in SPARQL with OPTIONAL, and 10,000 updates that each
# change ten answers. It prints, of five runs, the best and the median of the updates and of the indications in a second, and the
# most memory of any. Where a python3 has rdflib, that is given the same work as a program without standing queries would do
# it: each query evaluated afresh after each update. It does a tenth of the updates, and its figures are scaled from them. It is no part of the gate.
#
# SIB names another program than the built one.
cd "$(dirname "$0")/.." || exit 1
program="$(realpath -m "${SIB:-crates/sib/out/sib}")"
if [ ! -x "$program" ] || [ ! -x /usr/bin/time ]; then
    echo "trial: skipped, since there is no $program or no /usr/bin/time"
    exit 0
fi
scratch="$(mktemp -d)" || exit 1
trap 'rm -rf "$scratch"' EXIT
updates=10000

for _ in 1 2 3 4 5; do
    /usr/bin/time -f '%e %M' -a -o "$scratch/costs" "$program" trial "$updates" >"$scratch/said" || exit 1
    if ! printf 'confirms 10051 indications 100000\n= 10000 20 50\n' | cmp -s - "$scratch/said"; then
        echo "trial: it wrote something else: $(tr '\n' ' ' <"$scratch/said")"
        exit 1
    fi
done
sort -n "$scratch/costs" | awk -v updates="$updates" '
    { seconds[NR] = $1; if ($2 > memory) memory = $2 }
    function rates(name, time) {
        if (time == 0) return name ": too short to tell"
        return sprintf("%s: %.2f s, %.0f updates and %.0f indications a second", name, time, updates / time, 10 * updates / time)
    }
    END {
        print "trial: " rates("best of five", seconds[1])
        print "trial: " rates("median", seconds[3])
        printf "trial: %d KiB of memory at most\n", memory
    }'

# A python3 that has rdflib, if there is one.
python=""
for one in python3 /usr/bin/python3; do
    if [ -z "$python" ] && "$one" -c 'import rdflib' 2>"$scratch/none"; then
        python="$one"
    fi
done
if [ -z "$python" ]; then
    echo "rdflib: skipped, since no python3 has it"
    exit 0
fi
"$python" - "$updates" <<'PYTHON'
import resource, sys, time
from rdflib import Graph, Literal, URIRef
from rdflib.plugins.sparql import prepareQuery

def text(k):
    a, b = k % 5, (k + 1) % 5
    if k % 2 == 0:
        return "SELECT DISTINCT ?s ?o { ?s <x:p%d> ?o }" % a
    return "SELECT DISTINCT ?s ?o ?z { ?s <x:p%d> ?o OPTIONAL { ?s <x:p%d> ?z } }" % (a, b)

all_updates = int(sys.argv[1])
updates = all_updates // 10
queries = [prepareQuery(text(k)) for k in range(50)]
graph = Graph()
answers = [set() for _ in queries]
told, begin = 0, time.perf_counter()
for j in range(updates):
    graph.remove((URIRef("x:s%d" % ((j + 20) % 40)), None, None))
    graph.add((URIRef("x:s%d" % (j % 40)), URIRef("x:p%d" % (j % 5)), Literal("o%d" % (j % 11))))
    for k, query in enumerate(queries):
        answer = set(graph.query(query))
        told += answer != answers[k]
        answers[k] = answer
took = time.perf_counter() - begin
if told != 10 * updates:
    sys.exit("rdflib: %d changed answers, and there should be %d" % (told, 10 * updates))
print("rdflib: each query afresh after each update: %.0f updates and %.0f changed answers a second" % (updates / took, told / took))
print("rdflib: %d updates took %.1f s, so %d would take %.0f s (scaled, one run)" % (updates, took, all_updates, took * all_updates / updates))
print("rdflib: %d KiB of memory at most" % resource.getrusage(resource.RUSAGE_SELF).ru_maxrss)
PYTHON
