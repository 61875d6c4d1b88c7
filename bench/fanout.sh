#!/usr/bin/env bash
# Measures how fast `sib serve` tells many: one writer, and ten watchers of one template, over the loopback. "lockstep": the writer
# waits until all ten have the notice before the next update. "streamed": at most 64 updates are unanswered. It prints the notices in a
# second, the best and the median of five runs of 2,000 and of 20,000 updates. Where mosquitto or redis-server is installed, the same
# is measured over its publish and subscribe (MQTT 3.1.1 with QoS 0, and RESP), with payloads of the same size and clients of the same
# kind (fanout.py). These keep no graph and evaluate no query. It is no part of the gate.
#
# SIB names another program than the built one.
cd "$(dirname "$0")/.." || exit 1
program="$(realpath -m "${SIB:-crates/sib/out/sib}")"
scratch="$(mktemp -d)" || exit 1
started=()
trap '[ "$BASHPID" -ne $$ ] || { kill "${started[@]}" 2>>"$scratch/none"; wait; rm -rf "$scratch"; }' EXIT
if [ ! -x "$program" ] || ! command -v python3 >"$scratch/none"; then
    echo "fanout: skipped, since there is no $program or no python3"
    exit 0
fi

# A port that is free.
free_port() { python3 -c 'import socket; s = socket.create_server(("127.0.0.1", 0)); print(s.getsockname()[1])'; }

: >"$scratch/address"
"$program" serve X 127.0.0.1:0 >"$scratch/output" 2>"$scratch/address" &
started+=("$!")
for _ in {1..200}; do
    [ "$(wc -l <"$scratch/address")" -eq 0 ] || break
    sleep 0.025
done
port="$(sed -nE 's/^listening on 127\.0\.0\.1:([0-9]+)$/\1/p' "$scratch/address")"
if [ -z "$port" ]; then
    echo "fanout: the server does not say where it listens: $(cat "$scratch/address")"
    exit 1
fi
brokers=("sib=$port")

# Debian keeps it where the path of a user may not lead.
mosquitto="$(PATH="$PATH:/usr/sbin" command -v mosquitto)"
if [ -n "$mosquitto" ]; then
    port="$(free_port)"
    printf 'listener %d 127.0.0.1\nallow_anonymous true\nset_tcp_nodelay true\nlog_dest none\n' "$port" >"$scratch/mosquitto.conf"
    "$mosquitto" -c "$scratch/mosquitto.conf" >"$scratch/mosquitto.log" 2>&1 &
    started+=("$!")
    brokers+=("mosquitto=$port")
else
    echo "fanout: mosquitto: skipped, since it is not installed"
fi
if command -v redis-server >"$scratch/none"; then
    port="$(free_port)"
    redis-server --port "$port" --bind 127.0.0.1 --save '' --appendonly no --dir "$scratch" >"$scratch/redis.log" 2>&1 &
    started+=("$!")
    brokers+=("redis=$port")
else
    echo "fanout: redis-server: skipped, since it is not installed"
fi

python3 -B bench/fanout.py "${brokers[@]}" &
started+=("$!")
wait "$!"
