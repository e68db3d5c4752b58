# shellcheck shell=bash
# Waiting for what is to become so on a bed. Sourced by the labs.

# until_true SECONDS COMMAND..: waits for it; says how long it took
until_true() {
    local began now limit=$1
    began=$(date +%s%3N)
    shift
    until "$@" > /dev/null 2>&1; do
        now=$(date +%s%3N)
        [ $((now - began)) -lt $((limit * 1000)) ] || { echo "not within $limit s: $*"; return 1; }
        sleep 0.1
    done
    echo "after $(($(date +%s%3N) - began)) ms: $*"
}
