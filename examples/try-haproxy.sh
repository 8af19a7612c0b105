#!/usr/bin/env bash
# Starts the agent, a small server and HAProxy with the example configuration on loopback, sends a request that passes
# and one that is denied, shows both answers and the agent's counts, and ends what it started.
#
#   examples/try-haproxy.sh
#
# It takes the ports 8000, 8080 and 9000 of 127.0.0.1. Where the agent is not built yet, `yefontsila` proves and builds
# it first.
set -u
top=$(cd "$(dirname "${BASH_SOURCE[0]}")/.." && pwd)
folder=$(mktemp -d) || exit 1
started=()

say() { echo "try-haproxy: $*"; }

finish() {
    for process in "${started[@]}"; do kill "$process" 2>/dev/null; done
    wait 2>/dev/null
    rm -rf "$folder"
}
trap finish EXIT

for tool in haproxy curl python3; do
    command -v "$tool" >/dev/null || { say "$tool is missing; nothing was started"; exit 1; }
done

# Waits until the command succeeds, as long as the process lives.
await() {
    local process=$1
    shift
    until "$@" >/dev/null 2>&1; do
        kill -0 "$process" 2>/dev/null || return 1
        sleep 0.1
    done
}

# The agent: its output is appended, so that the file can be emptied below. Its orders come through a pipe that stays
# open, and its first answer says that it listens.
mkfifo "$folder/orders"
"$top/yefontsila" serve "$top/examples/agent.toml" <"$folder/orders" >>"$folder/said" &
agent=$!
started+=("$agent")
exec 3>"$folder/orders"
echo stats >&3
await "$agent" grep -q '^stats' "$folder/said" || { say "the agent did not start"; exit 1; }

mkdir "$folder/site"
echo "hello" >"$folder/site/index.html"
python3 -m http.server 8000 --bind 127.0.0.1 --directory "$folder/site" >/dev/null 2>&1 &
started+=("$!")
await "$!" curl -s http://127.0.0.1:8000/ || { say "the server did not start"; exit 1; }

haproxy -db -f "$top/examples/haproxy.cfg" >"$folder/haproxy.log" 2>&1 &
started+=("$!")
await "$!" curl -s http://127.0.0.1:8080/ || { say "HAProxy did not start:"; cat "$folder/haproxy.log"; exit 1; }

# Shows the status and the first line of what HAProxy answers.
show() {
    local status
    status=$(curl -s -o "$folder/answer" -w '%{http_code}' "$1")
    say "GET $1: $status, $(head -n 1 "$folder/answer" | tr -cd '[:print:]')"
}

show "http://127.0.0.1:8080/"
show "http://127.0.0.1:8080/?q=%3Cscript%3Ealert(1)%3C/script%3E"

: >"$folder/said"
echo stats >&3
await "$agent" grep -q '^stats' "$folder/said"
say "the agent's counts: $(cat "$folder/said")"
echo stop >&3
exec 3>&-
