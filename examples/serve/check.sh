#!/usr/bin/env bash
# Tries `sib serve` from the outside, over the loopback: it starts the built server on a free port for each scene, plays the scene, and
# ends the server. scenes.py has the scenes whose peers speak by sockets. Each wait has an end, the whole takes less than 90 seconds,
# and what was started here is ended by its id, also where a scene fails. SIB names another program than the built one.
cd "$(dirname "$0")/../.." || exit 1
program="$(realpath -m "${SIB:-crates/sib/out/sib}")"
if [ ! -x "$program" ]; then
    echo "serve: skipped, since there is no built program at ${SIB:-crates/sib/out/sib}"
    exit 0
fi
if ! command -v python3 >/dev/null; then
    echo "serve: skipped, since there is no python3"
    exit 0
fi
scratch="$(mktemp -d)" || exit 1
passed=0
failed=0
limit=30 # seconds of a command
last=80  # no scene begins later than this
declare -A running=()

# Starts a command in the background, for at most `limit` seconds. Its process stands in `started`.
start() {
    timeout -k 1 "$limit" "$@" &
    started=$!
    running[$started]=1
}

# Waits for a process; its status is the answer.
finished() {
    local status
    wait "$1"
    status=$?
    unset "running[$1]"
    return "$status"
}

# Ends a process by SIGTERM, or, where it has not ended within two seconds, by SIGKILL. Its status is the answer.
end() {
    kill "$1" 2>>"$scratch/none"
    for _ in {1..40}; do
        kill -0 "$1" 2>>"$scratch/none" || break
        sleep 0.05
    done
    kill -KILL "$1" 2>>"$scratch/none"
    finished "$1" 2>>"$scratch/none"
}

# Ends all that still runs.
end_all() {
    local process
    for process in "${!running[@]}"; do end "$process"; done
}
trap '[ "$BASHPID" -ne $$ ] || { end_all; rm -rf "$scratch"; }' EXIT
trap 'exit 130' INT
trap 'exit 143' TERM HUP

# Tries a command until it succeeds, for at most ten seconds.
soon() {
    for _ in {1..400}; do
        if "$@"; then return 0; fi
        [ "$SECONDS" -lt $((last + 5)) ] || break
        sleep 0.025
    done
    echo "serve: it did not come to this in time: $*"
    return 1
}

# Whether a command ends with a status and writes exactly this to standard output.
says() {
    local status="$1" output="$2" ended
    shift 2
    start "$@" >"$scratch/said" 2>>"$scratch/none"
    finished "$started"
    ended=$?
    if [ "$ended" -eq "$status" ] && printf '%b' "$output" | cmp -s - "$scratch/said"; then return 0; fi
    echo "serve: '${*:2}' ended with $ended and not $status, or wrote something else: $(head -c 300 "$scratch/said")"
    return 1
}

# --- the server ---

# Starts a server. Its process stands in `server`, and where it listens in `address`.
start_server() {
    : >"$scratch/error"
    "$program" serve X "${1:-127.0.0.1:0}" >"$scratch/output" 2>"$scratch/error" &
    server=$!
    running[$server]=1
    soon told || return 1
    address="$(sed -nE 's/^listening on (127\.0\.0\.1:[1-9][0-9]*)$/\1/p' "$scratch/error")"
    if [ -n "$address" ]; then return 0; fi
    echo "serve: no address on standard error: $(cat "$scratch/error")"
    return 1
}

# Whether the server wrote a line.
told() { [ "$(wc -l <"$scratch/error")" -gt 0 ]; }

# Ends the server by SIGTERM. It was still there, and it has written the one line.
stop_server() {
    local status
    end "$server"
    status=$?
    if [ "$status" -ne 143 ]; then
        echo "serve: the server ended with $status and not by SIGTERM: $(cat "$scratch/error")"
    elif [ -s "$scratch/output" ] || [ "$(wc -l <"$scratch/error")" -ne 1 ]; then
        echo "serve: the server wrote more than its address: $(head -c 300 "$scratch/output" "$scratch/error")"
    else
        return 0
    fi
    return 1
}

# --- the scenes ---

# A watcher in one process, and an insert in another.
three_terminals() {
    start "$program" kp "$address" watch X k 'SELECT DISTINCT ?s { ?s <p> "1" }' 1 >"$scratch/watched"
    local watcher="$started"
    soon grep -qx 'answer 0 0' "$scratch/watched" || return 1
    says 0 'ok\n' "$program" kp "$address" insert X m a p literal 1 || return 1
    finished "$watcher" && printf 'answer 0 0\nanswer 1 1\n<a>\n' | cmp - "$scratch/watched"
}

# Each of 100 clients connects, inserts and leaves, up to ten at once. Afterwards a query has 100 rows.
a_hundred_clients() {
    seq 100 >"$scratch/numbers"
    start xargs -a "$scratch/numbers" -P 10 -I{} "$program" kp "$address" insert X 'n{}' 's{}' p literal 1 >>"$scratch/inserted"
    finished "$started" && [ "$(wc -c <"$scratch/inserted")" -eq 300 ] || return 1
    says 0 "answer 0 100\n$(seq 100 | sed 's/^/s/' | LC_ALL=C sort | sed 's/.*/<&>\\n/' | tr -d '\n')" \
        "$program" kp "$address" query X q 'SELECT DISTINCT ?s { ?s <p> "1" }'
}

# A scene of scenes.py.
python_scene() {
    start python3 -B examples/serve/scenes.py "${FUNCNAME[1]}" "$address" "$server"
    finished "$started"
}
a_thousand_indications_from_two_writers() { python_scene; }
peers_that_go_in_the_middle_of_a_message() { python_scene; }
peers_that_end_their_input() { python_scene; }
bytes_that_are_no_request() { python_scene; }
a_peer_that_says_nothing() { python_scene; }
peers_that_reset() { python_scene; }
a_peer_that_never_reads() { python_scene; }
three_hundred_connections() { python_scene; }

# SIGTERM ends the process, its clients see the ends of their streams, and a new server takes the address at once.
a_server_that_is_ended() {
    start "$program" kp "$address" watch X k 'SELECT DISTINCT ?s { ?s <p> "1" }' 1 >"$scratch/watched"
    local watcher="$started" peers
    start python3 -B examples/serve/scenes.py "${FUNCNAME[0]}" "$address" "$server" >"$scratch/peers"
    peers="$started"
    soon grep -qx 'answer 0 0' "$scratch/watched" && soon grep -qx ready "$scratch/peers" && stop_server || return 1
    finished "$peers" || { cat "$scratch/peers"; return 1; }
    finished "$watcher"
    [ "$?" -eq 10 ] && printf 'answer 0 0\nended\n' | cmp - "$scratch/watched" && start_server "$address"
}

# Words that are no command end with 2, an address in use with 16. Nothing is written to standard output.
words_that_serve_nothing() {
    local limit=5 long
    long="$(head -c 1025 /dev/zero | tr '\0' n)"
    says 2 '' "$program" serve &&
        says 2 '' "$program" serve X &&
        says 2 '' "$program" serve X 127.0.0.1:0 more &&
        says 2 '' "$program" serve '' 127.0.0.1:0 &&
        says 2 '' "$program" serve "$long" 127.0.0.1:0 &&
        says 2 '' "$program" serve $'\xff' 127.0.0.1:0 &&
        says 16 '' "$program" serve X "$address"
}

# Plays a scene with a server of its own.
scene() {
    local left=$((last - SECONDS))
    limit=$((left < 30 ? left : 30))
    if [ "$left" -gt 0 ] && start_server && "$1" && stop_server; then
        echo "serve: ${1//_/ }"
        passed=$((passed + 1))
    else
        echo "serve: not so: ${1//_/ }"
        failed=$((failed + 1))
    fi
    end_all
}

for name in three_terminals a_hundred_clients a_thousand_indications_from_two_writers peers_that_go_in_the_middle_of_a_message \
    peers_that_end_their_input bytes_that_are_no_request a_peer_that_says_nothing peers_that_reset a_peer_that_never_reads \
    three_hundred_connections a_server_that_is_ended words_that_serve_nothing; do
    scene "$name"
done
if [ "$failed" -ne 0 ]; then
    echo "serve: $failed scenes failed, $passed passed"
    exit 1
fi
echo "serve: $passed scenes passed"
