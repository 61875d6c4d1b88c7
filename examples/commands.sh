# The commands `show`, `check`, `make` and `trial`, the words that are no command, and docs/sib.1. examples/check.sh runs these lines, in
# this directory, with `program`, `passed` and `failed`.
scratch="$(mktemp -d)" || exit 1
trap 'rm -rf "$scratch"' EXIT

# Counts whether the last command succeeded, under a sentence on what was tried.
count() {
    if [ "$?" -eq 0 ]; then
        passed=$((passed + 1))
    else
        echo "examples: not so: $1"
        failed=$((failed + 1))
    fi
}

# Whether the words end with a status and write exactly this. The input is that of the call.
ends() {
    local status="$1" output="$2"
    shift 2
    "$program" "$@" >"$scratch/output" 2>"$scratch/error"
    [ "$?" -eq "$status" ] && printf '%b' "$output" | cmp -s - "$scratch/output"
}

# Whether the words end with a status, write nothing and leave their input unread.
untouched() {
    local status="$1"
    shift
    { ends "$status" '' "$@" && cmp -s - <(echo unread); } <<<"unread"
}

# The messages of a script or of an output in the canonical spelling, each on its line.
messages() { grep -a '^<SSAP_message' "$@"; }

# Three messages in another spelling, with nothing between them, and the canonical spelling of the first.
for line in 3 5 7; do sed -n "${line}p" spelling.script | tr -d '\n'; done >"$scratch/three"
first='<SSAP_message><message_type>REQUEST</message_type><transaction_type>JOIN</transaction_type><transaction_id>1</transaction_id>'
first="$first"'<node_id>k</node_id><space_id>X</space_id><parameter name="credentials">XYZZY</parameter></SSAP_message>'

ends 0 'ok 3\n' check <"$scratch/three"; count "check counts three messages"
ends 0 "$first\n" show < <(sed -n 3p spelling.script); count "show writes the canonical spelling"
"$program" show <"$scratch/three" >"$scratch/shown"; count "show ends with 0"
ends 0 'ok 3\n' check <"$scratch/shown"; count "check counts what show wrote"
"$program" show <"$scratch/shown" | cmp -s - "$scratch/shown"; count "show writes what it wrote again"
cat "$scratch/three" "$scratch/three" | fold -b -w 100 | tr -d '\n' | ends 0 'ok 6\n' check; count "check takes a stream from a pipe"
for command in show check; do
    ends 1 '! 15 syntax\n' "$command" <<<'<SSAP_message><x'; count "$command stops where no tag goes on"
    ends 1 '! 0 syntax\n' "$command" <<<'x'; count "$command stops at the first byte"
    ends 1 '! 2 cut\n' "$command" < <(printf ' \n<SSAP'); count "$command stops where the input ends inside a message"
    ends 1 '! 0 cut\n' "$command" < <(printf '<?xml'); count "$command stops where the input ends inside a declaration"
    ends 4 '' "$command" </; count "$command ends with 4 where its input is a directory"
done
ends 0 'ok 0\n' check </dev/null; count "check over no bytes"
ends 0 'ok 0\n' check <<<$' \t\r'; count "check over white space"
ends 0 '' show </dev/null; count "show over no bytes"
{ echo "$first"; printf '<SSAP'; } | ends 1 "$first\n! 230 cut\n" show; count "show writes what came before a stop"
{ echo "$first"; printf '<SSAP'; } | ends 1 '! 230 cut\n' check; count "check says where a stop is alone"
{ echo "$first"; printf '<SSAP_message></'; } | ends 1 "$first\n! 245 syntax\n" show; count "the offset of a stop counts from the first byte"

# The canonical spelling is written as it was: the messages of each scene's output.
for expected in *.expected; do
    messages "$expected" >"$scratch/messages"
    "$program" show <"$scratch/messages" | cmp -s - "$scratch/messages" &&
        ends 0 "ok $(wc -l <"$scratch/messages")\n" check <"$scratch/messages"
    count "show and check over the messages of $expected"
done

# A JOIN whose credentials are so many times this character.
join_of() {
    printf '%s' "${first%%XYZZY*}"
    head -c "$1" /dev/zero | tr '\0' "$2"
    printf '%s' "${first##*XYZZY}"
}
join_of 4194080 a >"$scratch/longest"
[ "$(stat -c %s "$scratch/longest")" -eq 4194304 ]; count "the longest message has 4,194,304 bytes"
ends 0 'ok 1\n' check <"$scratch/longest"; count "check takes the longest message"
"$program" show <"$scratch/longest" | cmp -s - <(cat "$scratch/longest"; echo); count "show takes the longest message"
for command in show check; do
    join_of 4194081 a | ends 1 '! 0 long\n' "$command"; count "$command stops at a message of a byte more"
done
{ echo "$first"; join_of 4194081 a; } | ends 1 "$first\n! 230 long\n" show; count "a message too long is told by its start"
{ join_of 4194080 a | head -c -1; echo; echo '>'; } | ends 1 '! 0 long\n' check; count "white space in the last tag counts"
[ "$(join_of 4194080 '"' | "$program" show | wc -c)" -eq $((225 + 6 * 4194080)) ]; count "show writes more than a message may have"

# The generated script, by its definition.
generated() {
    awk -v updates="$1" '
        function deliver(bytes) { printf ">1 %d\n%s\n", length(bytes), bytes }
        function message(kind, id, parameters) {
            return "<SSAP_message><message_type>REQUEST</message_type><transaction_type>" kind "</transaction_type><transaction_id>" id \
                "</transaction_id><node_id>w</node_id><space_id>trial</space_id>" parameters "</SSAP_message>"
        }
        function parameter(name, attribute, body) { return "<parameter name=\"" name "\"" attribute ">" body "</parameter>" }
        function list(subject, predicate, type, object) {
            return "<triple_list><triple><subject type=\"uri\">" subject "</subject><predicate>" predicate "</predicate><object type=\"" \
                type "\">" object "</object></triple></triple_list>"
        }
        function text(a, b) { return "SELECT DISTINCT ?s ?o ?z { ?s &lt;p" a "&gt; ?o OPTIONAL { ?s &lt;p" b "&gt; ?z } }" }
        BEGIN {
            encoding = " encoding=\"RDF-M3\""
            print "+"
            deliver(message("JOIN", 1, ""))
            for (k = 0; k < 50; k++)
                deliver(message("SUBSCRIBE", 2 + k, parameter("type", "", k % 2 ? "sparql" : "RDF-M3") \
                    parameter("query", "", k % 2 ? text(k % 5, (k + 1) % 5) : list("sib:any", "p" k % 5, "uri", "sib:any"))))
            for (j = 0; j < updates; j++)
                deliver(message("UPDATE", 52 + j, parameter("insert_graph", encoding, list("s" j % 40, "p" j % 5, "literal", "o" j % 11)) \
                    parameter("remove_graph", encoding, list("s" (j + 20) % 40, "sib:any", "uri", "sib:any"))))
        }'
}
for updates in 1 2 21 10000; do
    "$program" make "$updates" >"$scratch/made" && generated "$updates" | cmp -s - "$scratch/made"; count "make $updates writes the script"
    messages "$scratch/made" | ends 0 "ok $((51 + updates))\n" check; count "check counts the messages of make $updates"
    messages "$scratch/made" | "$program" show | cmp -s - <(messages "$scratch/made"); count "make $updates writes canonical spellings"
    "$program" replay trial <"$scratch/made" >"$scratch/replayed" &&
        { echo "confirms $(grep -c '<message_type>CONFIRM</message_type>' "$scratch/replayed")" \
            "indications $(grep -c '<message_type>INDICATION</message_type>' "$scratch/replayed")"; tail -n 1 "$scratch/replayed"; } |
            cmp -s - <("$program" trial "$updates")
    count "trial $updates agrees with make $updates and replay"
done
ends 0 'confirms 52 indications 10\n= 1 1 50\n' trial 1; count "trial 1"
ends 0 'confirms 53 indications 20\n= 2 2 50\n' trial 2; count "trial 2"
ends 0 'confirms 72 indications 210\n= 21 20 50\n' trial 21; count "trial 21"
ends 0 'confirms 10051 indications 100000\n= 10000 20 50\n' trial 10000; count "trial 10000"

# What is no command writes nothing and reads nothing; what needs no input reads none.
untouched 2; count "no words"
for words in 'check again' 'show again' 'check check' CHECK Show 'make' 'trial' 'make 1 1' 'trial 1 1' replay 'replay X X' kp \
    {make,trial}' '{0,00,01,10001,+1,-1,1.,0x1,one,1e3,65537,4294967297,18446744073709551617}; do
    # shellcheck disable=SC2086
    untouched 2 $words; count "'$words' is no command"
done
for command in make trial replay; do
    untouched 2 "$command" ''; count "'$command' with an empty word is no command"
done
for command in make trial; do
    untouched 2 "$command" $'1\n'; count "'$command' with a line feed in its number is no command"
done
name="$(head -c 1024 /dev/zero | tr '\0' n)"
ends 0 '= 0 0 0\n' replay "$name" </dev/null; count "a space may have 1,024 bytes"
untouched 2 replay "${name}n"; count "and no byte more"
untouched 2 replay $'\001'; count "nor a character that is in no text"
untouched 2 replay $'\377'; count "nor bytes that are no UTF-8"
"$program" check again </dev/null 2>&1 >"$scratch/none" | tr '\n' ' ' >"$scratch/forms"
for form in 'replay SPACE' show check 'make N' 'trial N' 'kp ADDRESS insert' 'kp ADDRESS query' 'kp ADDRESS watch'; do
    grep -q "sib $form" "$scratch/forms"; count "standard error tells the form '$form'"
done
{ "$program" make 1 >"$scratch/none" && "$program" trial 1 >"$scratch/none" && cmp -s - <(echo unread); } <<<unread
count "make and trial read nothing"
untouched 16 kp 127.0.0.1:1 query X k 'SELECT DISTINCT * {}'; count "kp ends with 16 where nobody listens"
if [ -c /dev/full ]; then
    for words in show 'make 1' 'make 10000' 'trial 1'; do
        # shellcheck disable=SC2086
        "$program" $words <"$scratch/three" >/dev/full 2>"$scratch/error"
        [ "$?" -eq 5 ]; count "'$words' ends with 5 where its output takes no bytes"
    done
    "$program" check <"$scratch/three" >/dev/full; [ "$?" -eq 5 ]; count "check ends with 5 where its output takes no bytes"
fi

# Each line of README.md and docs/PROTOCOL.md that can be pasted writes what stands behind it, with `; ` between lines and before any
# remark in parentheses.
for page in README.md docs/PROTOCOL.md; do
    tried=0
    while IFS= read -r line; do
        command="${line%%  #*}"
        writes="${line##*# }"
        wrote="$(cd .. && bash -c "${command//bin\/sib/$program}" 2>"$scratch/error" | paste -s -d ';' | sed 's/;/; /g')"
        [ "$wrote" = "${writes%% (*}" ]; count "$page: $command"
        tried=$((tried + 1))
    done < <(grep 'bin/sib .*  # ' "../$page" | grep -v ' kp \|sib serve \|lamp\.script\|sib build')
    [ "$tried" -ge 6 ]; count "$page has lines to paste"
done

# The man page is laid out without a warning, and each line of its examples writes what stands below it. Those that need a broker are
# not tried.
if command -v man >"$scratch/none" && MANWIDTH=80 man --warnings -l ../docs/sib.1 >"$scratch/page" 2>"$scratch/error" &&
    grep -q '^SIB(1)' "$scratch/page"; then
    [ ! -s "$scratch/error" ]; count "docs/sib.1 is laid out without a warning"
    for form in 'replay SPACE' show check 'make N' 'trial N' 'kp ADDRESS insert' 'kp ADDRESS query' 'kp ADDRESS watch'; do
        grep -q "sib $form" "$scratch/page"; count "docs/sib.1 tells the form '$form'"
    done
    LC_ALL=C.UTF-8 MANWIDTH=200 man -l ../docs/sib.1 | sed -n '/^EXAMPLES/,/^STANDARDS/s/^[ \t]*//p' >"$scratch/examples"
    lines=0
    while IFS= read -r line; do
        case "$line" in
        '$ '*' kp '*) writes="" ;;
        '$ '*)
            writes="$(sed -n "$((lines + 2)),\$p" "$scratch/examples" | sed '/^\$ /,$d; /^$/,$d')"
            command="${line#\$ }"
            wrote="$(cd .. && bash -c "${command//bin\/sib/$program}" 2>"$scratch/error")"
            [ -n "$writes" ] && [ "$wrote" = "$writes" ]; count "docs/sib.1: $command"
            ;;
        esac
        lines=$((lines + 1))
    done <"$scratch/examples"
else
    echo "examples: docs/sib.1 was not tried, since there is no man"
fi
