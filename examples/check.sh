#!/usr/bin/env bash
# Runs the built program on each scene and compares what it writes: NAME.words has its words, one a line,
# NAME.script its input, and NAME.expected what it must write. commands.sh has the other commands. SIB names another program than
# the built one.
cd "$(dirname "$0")/.." || exit 1
program="$(realpath -m "${SIB:-crates/sib/out/sib}")"
if [ ! -x "$program" ]; then
    echo "examples: skipped, since there is no built program at ${SIB:-crates/sib/out/sib}"
    exit 0
fi
cd examples || exit 1
passed=0
failed=0
for script in *.script; do
    name="${script%.script}"
    mapfile -t words <"$name.words"
    if "$program" "${words[@]}" <"$script" | cmp -s - "$name.expected"; then
        passed=$((passed + 1))
    else
        echo "examples: $name writes something else"
        failed=$((failed + 1))
    fi
done

# A JOIN with credentials of so many letters, delivered so many bytes at a time.
long_join() {
    echo "+"
    {
        printf '<SSAP_message><message_type>REQUEST</message_type><transaction_type>JOIN</transaction_type>'
        printf '<transaction_id>1</transaction_id><node_id>k</node_id><space_id>X</space_id><parameter name="credentials">'
        head -c "$1" /dev/zero | tr '\0' a
        printf '</parameter></SSAP_message>'
    } | fold -b -w "$2" | awk '{ printf ">1 %d\n%s\n", length($0), $0 }'
}

# The longest message that may be, of 4,194,304 bytes, is answered as a short one is; one of a byte more is too long.
for count in 65536 7 1; do
    if long_join 4194080 "$count" | "$program" replay X | cmp -s - <(head -n 2 lamp.expected; echo "= 0 0 0") &&
        long_join 4194081 "$count" | "$program" replay X | cmp -s - <(printf '!1 0 long\n= 0 0 0\n'); then
        passed=$((passed + 1))
    else
        echo "examples: the longest message, or one of a byte more, $count bytes at a time, is answered otherwise"
        failed=$((failed + 1))
    fi
done

# What awk makes messages from: the heads, a triple by the predicate p, a list of triples; a request on a link, a confirm and
# an indication.
spelling='
    BEGIN { link = 1 }
    function heads(type, transaction, number) {
        return "<SSAP_message><message_type>" type "</message_type><transaction_type>" transaction "</transaction_type>" \
            "<transaction_id>" number "</transaction_id><node_id>k</node_id><space_id>X</space_id>"
    }
    function triple(subject, type, object) {
        return "<triple><subject type=\"uri\">" subject "</subject><predicate>p</predicate>" \
            "<object type=\"" type "\">" object "</object></triple>"
    }
    function list(name, triples) {
        return "<parameter name=\"" name "\"><triple_list>" triples "</triple_list></parameter>"
    }
    function ending() { return "</triple_list></parameter></SSAP_message>" }
    function deliver(bytes) { printf ">%d %d\n", link, length(bytes); print bytes }
    function join() { deliver(heads("REQUEST", "JOIN", 1) "</SSAP_message>") }
    function query(number, subject) {
        deliver(heads("REQUEST", "QUERY", number) "<parameter name=\"type\">RDF-M3</parameter>" \
            list("query", triple(subject, "uri", "sib:any")) "</SSAP_message>")
    }
    function subscribe(number, subject) {
        deliver(heads("REQUEST", "SUBSCRIBE", number) "<parameter name=\"type\">RDF-M3</parameter>" \
            list("query", triple(subject, "uri", "sib:any")) "</SSAP_message>")
    }
    function unsubscribe(number, subscription) {
        deliver(heads("REQUEST", "UNSUBSCRIBE", number) of(subscription) "</SSAP_message>")
    }
    function of(subscription) { return "<parameter name=\"subscription_id\">" subscription "</parameter>" }
    # The confirm without its end.
    function confirm(transaction, number, status) {
        return heads("CONFIRM", transaction, number) "<parameter name=\"status\">m3:" status "</parameter>"
    }
    function send(bytes) { printf "<%d %d\n", link, length(bytes); print bytes }
    function refuse(transaction, number) { send(confirm(transaction, number, "SIB.Failure.OutOfResources") "</SSAP_message>") }
    function accept(transaction, number) { send(confirm(transaction, number, "Success") "</SSAP_message>") }
    # The confirm of a subscription whose first answer is empty.
    function first_answer(number, subscription) {
        send(confirm("SUBSCRIBE", number, "Success") of(subscription) list("results", "") "</SSAP_message>")
    }
    # The indication of new triples, without its end and the list that goes before it.
    function told(number, subscription, sequence) {
        return heads("INDICATION", "SUBSCRIBE", number) of(subscription) "<parameter name=\"ind_sequence\">" sequence "</parameter>" \
            "<parameter name=\"new_results\"><triple_list>"
    }
    function tell(number, subscription, sequence, triples) { send(told(number, subscription, sequence) triples told_end()) }
    function told_end() { return "</triple_list></parameter>" list("obsolete_results", "") "</SSAP_message>" }
    function finish(number, subscription, status) {
        send(heads("INDICATION", "UNSUBSCRIBE", number) of(subscription) "<parameter name=\"status\">m3:" status "</parameter></SSAP_message>")
    }
'

# A graph, and a query whose confirm has so many bytes more than a message may have: the script, or what it writes. The
# literals are of quotes, which a confirm spells in six bytes each; the last literal makes up the length.
long_answer() {
    awk -v part="$1" -v more="$2" "$spelling"'
        # So many quotes, in this spelling.
        function quotes(count, spelling,    text) {
            while (count-- > 0)
                text = text spelling
            return text
        }
        # The object with this number, or the last one.
        function object(i, spelling) {
            return i < whole ? sprintf("%03d", i) (spelling == "\"" ? raw : spelled) : last quotes(rest, spelling)
        }
        BEGIN {
            raw = quotes(4093, "\"")
            spelled = quotes(4093, "&quot;")
            begin = confirm("QUERY", 3, "Success") "<parameter name=\"results\"><triple_list>"
            left = 4194304 + more - length(begin ending())
            whole = int(left / length(triple("a", "literal", "000" spelled)))
            left -= whole * length(triple("a", "literal", "000" spelled)) + length(triple("a", "literal", "z"))
            rest = int(left / 6)
            last = substr("zxxxxx", 1, 1 + left % 6)

            if (part == "script") {
                print "+"
                join()
                deliver(heads("REQUEST", "INSERT", 2) "<parameter name=\"insert_graph\"><triple_list>")
                for (i = whole; i >= 0; i--)
                    deliver(triple("a", "literal", object(i, "\"")))
                deliver(ending())
                query(3, "a")
                exit
            }
            accept("JOIN", 1)
            accept("INSERT", 2)
            if (more > 0) {
                refuse("QUERY", 3)
            } else {
                printf "<1 %d\n%s", 4194304 + more, begin
                for (i = 0; i <= whole; i++)
                    printf "%s", triple("a", "literal", object(i, "&quot;"))
                print ending()
            }
            print "= 1 " (whole + 1) " 0"
        }'
}

# So many triples, more than an answer may have; a query for all of them, and one for the last: the script, or what it writes.
wide_answer() {
    awk -v part="$1" -v count="$2" "$spelling"'
        BEGIN {
            last = count - 1
            requests = int((count + 16383) / 16384)
            if (part == "script") {
                print "+"
                join()
                for (i = 0; i < count; i++) {
                    if (i % 16384 == 0)
                        deliver(heads("REQUEST", "INSERT", 2 + i / 16384) "<parameter name=\"insert_graph\"><triple_list>")
                    deliver(triple("s" i, "literal", "1"))
                    if (i % 16384 == 16383 || i == last)
                        deliver(ending())
                }
                query(requests + 2, "sib:any")
                query(requests + 3, "s" last)
                exit
            }
            accept("JOIN", 1)
            for (i = 0; i < requests; i++)
                accept("INSERT", 2 + i)
            refuse("QUERY", requests + 2)
            send(confirm("QUERY", requests + 3, "Success") list("results", triple("s" last, "literal", "1")) "</SSAP_message>")
            print "= " requests " " count " 0"
        }'
}

# So many subscriptions of one node, of which 256 may live; one more where one has ended: the script, or what it writes.
many_subscriptions() {
    awk -v part="$1" -v count="$2" "$spelling"'
        BEGIN {
            if (part == "script") {
                print "+"
                join()
                for (i = 1; i <= count; i++)
                    subscribe(i + 1, "a")
                unsubscribe(count + 2, 1)
                subscribe(count + 3, "a")
                exit
            }
            accept("JOIN", 1)
            for (i = 1; i <= count && i <= 256; i++)
                first_answer(i + 1, i)
            for (; i <= count; i++)
                refuse("SUBSCRIBE", i + 1)
            accept("UNSUBSCRIBE", count + 2)
            finish(2, 1, "Success")
            first_answer(count + 3, 257)
            print "= 0 0 256"
        }'
}

# So many links, each with a subscription; one update tells all of them: the script, or what it writes.
many_links() {
    awk -v part="$1" -v count="$2" "$spelling"'
        BEGIN {
            if (part == "script") {
                for (i = 1; i <= count; i++)
                    print "+"
                join()
                for (link = 1; link <= count; link++)
                    subscribe(link + 1, "a")
                link = count
                deliver(heads("REQUEST", "INSERT", count + 2) list("insert_graph", triple("a", "literal", "1")) "</SSAP_message>")
                exit
            }
            accept("JOIN", 1)
            for (link = 1; link <= count; link++)
                first_answer(link + 1, link)
            for (link = 1; link < count; link++)
                tell(link + 1, link, 1, triple("a", "literal", "1"))
            accept("INSERT", count + 2)
            tell(count + 1, count, 1, triple("a", "literal", "1"))
            print "= 1 1 " count
        }'
}

# A standing query over so many triples in four inserts, and then one more, which makes it too wide: the script, or what it writes.
standing_width() {
    awk -v part="$1" -v count="$2" "$spelling"'
        function triples(from, to,    i) {
            for (i = from; i < to; i++)
                if (part == "script")
                    deliver(triple("s" i, "literal", "1"))
                else
                    printf "%s", triple("s" i, "literal", "1")
        }
        # The length of triples whose subjects are s and these numbers.
        function length_of(from, to,    i, sum) {
            for (i = from; i < to; i++)
                sum += length(triple("s" i, "literal", "1"))
            return sum
        }
        BEGIN {
            block = count / 4
            if (part == "script") {
                print "+"
                join()
                subscribe(2, "sib:any")
                for (b = 0; b <= 4; b++) {
                    deliver(heads("REQUEST", "INSERT", 3 + b) "<parameter name=\"insert_graph\"><triple_list>")
                    triples(b * block, b < 4 ? (b + 1) * block : count + 1)
                    deliver(ending())
                }
                query(8, "sib:any")
                exit
            }
            accept("JOIN", 1)
            first_answer(2, 1)
            for (b = 0; b < 4; b++) {
                accept("INSERT", 3 + b)
                printf "<1 %d\n%s", length(told(2, 1, b + 1) told_end()) + length_of(b * block, (b + 1) * block), told(2, 1, b + 1)
                print_in_order(b * block, (b + 1) * block)
                print told_end()
            }
            accept("INSERT", 7)
            finish(2, 1, "SIB.Failure.OutOfResources")
            refuse("QUERY", 8)
            print "= 5 " (count + 1) " 0"
        }
        # Triples whose subjects are s and these numbers, by the bytes of the subjects: as the numbers stand in a dictionary.
        function print_in_order(from, to,    first) {
            for (first = from == 0 ? 0 : 1; first <= 9; first++)
                walk(first, from, to)
        }
        function walk(number, from, to,    digit) {
            if (number >= to)
                return
            if (number >= from)
                printf "%s", triple("s" number, "literal", "1")
            if (number > 0)
                for (digit = 0; digit <= 9; digit++)
                    walk(number * 10 + digit, from, to)
        }'
}

# Three subscriptions on link 2, and an update on link 1 whose indications have so many letters each: the third would make too
# many bytes wait, so link 2 stops. The script, or what it writes.
second_link_overruns() {
    awk -v part="$1" -v count="$2" "$spelling"'
        function letters(count,    text, half) {
            if (count == 0)
                return ""
            half = letters(int(count / 2))
            return half half (count % 2 ? "x" : "")
        }
        function triples(    i, all) {
            for (i = 0; i < count / 4000; i++)
                all = all triple("a", "literal", sprintf("%04d", i) word)
            return all
        }
        BEGIN {
            word = letters(3996)
            if (part == "script") {
                print "+"
                print "+"
                join()
                for (link = 2; number < 3; number++)
                    subscribe(2 + number, "a")
                link = 1
                deliver(heads("REQUEST", "INSERT", 5) "<parameter name=\"insert_graph\"><triple_list>")
                for (i = 0; i < count / 4000; i++)
                    deliver(triple("a", "literal", sprintf("%04d", i) word))
                deliver(ending())
                deliver(heads("REQUEST", "INSERT", 6) list("insert_graph", triple("a", "literal", "1")) "</SSAP_message>")
                exit
            }
            accept("JOIN", 1)
            for (link = 2; number < 3; number++)
                first_answer(2 + number, 1 + number)
            link = 1
            accept("INSERT", 5)
            link = 2
            all = triples()
            tell(2, 1, 1, all)
            tell(3, 2, 1, all)
            print "!2 0 overrun"
            link = 1
            accept("INSERT", 6)
            print "= 2 " (count / 4000 + 1) " 0"
        }'
}

# Whether the script that a function makes from an argument is answered as it says.
check_answer() {
    if "$1" script "$2" | "$program" replay X | cmp -s - <("$1" output "$2"); then
        passed=$((passed + 1))
    else
        echo "examples: $1 $2 is answered otherwise"
        failed=$((failed + 1))
    fi
}

# An answer whose confirm has 4,194,304 bytes is sent. One of a byte more is refused, and so is one of 65,537 triples.
check_answer long_answer 0
check_answer long_answer 1
check_answer wide_answer 65537

# 256 subscriptions live and no more; an update tells 256 links; a standing query ends where its width passes 65,536 triples.
check_answer many_subscriptions 258
check_answer many_links 256
check_answer standing_width 65536

# Where the messages of one update are too many for a link, only its own subscriptions end.
check_answer second_link_overruns 3200000

# Of 257 links that are asked for, 256 open.
if yes + | head -n 257 | "$program" replay X | cmp -s - <(printf '!0 256 full\n= 0 0 0\n'); then
    passed=$((passed + 1))
else
    echo "examples: 257 links are answered otherwise"
    failed=$((failed + 1))
fi
. ./commands.sh
echo "examples: $passed passed, $failed failed"
[ "$failed" -eq 0 ]
