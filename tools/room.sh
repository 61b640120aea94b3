# What tools/run, tools/report and tools/plan share, which read this file with root set: a folder of their own, and an end by a signal that ends what
# they started.

room=$(mktemp -d) || exit 2
trap 'rm -rf "$room"' EXIT
started=''

# ended SIGNAL: ends what was started, and then this shell by the same signal, so that its caller sees which it was.
ended() {
    trap '' HUP INT TERM
    [ -z "$started" ] || { kill -s TERM "$started"; wait "$started"; }
    rm -rf "$room"
    trap - EXIT "$1"
    kill -s "$1" $$
}
for signal in HUP INT TERM; do
    # shellcheck disable=SC2064
    trap "ended $signal" $signal
done

# alone COMMAND..: runs it by tools/alone. It is waited for in the background: a shell takes no signal before a command in the foreground has ended.
alone() {
    "$root/tools/alone" --for "$0" "$@" &
    started=$!
    wait "$started"
    set -- $?
    started=''
    return "$1"
}
