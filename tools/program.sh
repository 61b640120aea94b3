# What tools/run and tools/report share, which read this file with root set, with program, the one that they run, and with flags, their options that
# have no value: it takes the options, makes the script's bytes, runs the program on them and passes on what that printed.

told() {
    sed -n '2,/^set/s/^# \{0,1\}//p' "$0"
}

# flag OPTION: sets the variable of this name, where it is one of flags.
flag() {
    for name in $flags; do
        [ "$1" != "--$name" ] || { eval "$name=$1"; return 0; }
    done
    return 1
}

show='' strict='' registers='' as=''
while [ $# -gt 0 ]; do
    case $1 in
    --as) [ $# -gt 1 ] || { told >&2; exit 2; }; as=$2; shift ;;
    --help) told; exit 0 ;;
    --) shift; break ;;
    -?*) flag "$1" || { told >&2; exit 2; } ;;
    *) break ;;
    esac
    shift
done
[ $# -eq 1 ] || { told >&2; exit 2; }

. "$root/tools/room.sh"

# Standard input is kept: what is said of an R line names its line in there.
: >"$room/given"
[ "$1" != - ] || cat >"$room/given" || exit 2
"$root/tools/script" bytes ${as:+--as "$as"} -- "$1" <"$room/given" >"$room/script.bin" || exit 2

if [ -e "$root/tools/alone" ]; then
    # One step for the lock: what was proved stays as it is until it has run.
    cc=${CC:-cc}
    # shellcheck disable=SC2016
    alone sh -c 'room=$1 program=$3
        cd "$2" && shift 3 && tools/needs rt "$@" || exit 2
        [ -x "target/bin/$program" ] || echo "proving and building $program: some four minutes, once" >&2
        tools/prove "$program" || exit 2
        [ $# -eq 0 ] || { tools/library && tools/registers "$room/script.bin" >"$room/registers"; } || exit 2
        "target/bin/$program" <"$room/script.bin" >"$room/lines" 2>"$room/said" || echo "$program: ended with status $?" >>"$room/said"
        ' sh "$room" "$root" "$program" ${registers:+ar "${cc%% *}"} || exit 2
else
    # Installed, there is no tools/alone, and the program and the library are there as they were proved.
    [ -z "$registers" ] || "$root/tools/registers" "$room/script.bin" >"$room/registers" || exit 2
    "$root/../../bin/$program" <"$room/script.bin" >"$room/lines" 2>"$room/said" || echo "$program: ended with status $?" >>"$room/said"
fi

status=0
if grep -q '^R ' "$room/lines"; then
    "$root/tools/refusals" ${show:+"$show"} ${as:+--as "$as"} -- "$1" "$room/lines" <"$room/given" || status=1
    [ -z "$strict" ] || status=1
elif [ -n "$show" ]; then
    "$root/tools/show" --script "$room/script.bin" "$room/lines" || status=1
else
    cat "$room/lines" || status=1
fi
[ -z "$registers" ] || cat "$room/registers" || status=1
if [ -s "$room/said" ]; then
    cat "$room/said" >&2
    status=1
fi
exit $status
