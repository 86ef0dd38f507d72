# PARENT COMMAND LOG waiting|proving CRATE...: shows on standard error how far the kit is with the crates, in the order in which it proves
# them, by the lines that it writes to LOG: one line that moves on a terminal, elsewhere a plain line for each crate that is proved, and one
# after each minute without. Nothing is shown of what ends within a second.
parent=$1 command=$2 log=$3 what=$4
shift 4
crates=$* all=$#
began=$(date +%s) shown=0 ended=''
last=$began
case $what in
waiting) text="another run is proving and building the program; waiting for it" ;;
*) text="proving and building the program, since it is not built from these sources yet; all $all crates take several minutes" ;;
esac

pause() {
    sleep 1 >/dev/null 2>&1 &
    wait $!
}

# How many crates are proved, and the name of each that was proved now. The kit says which one it begins with, and then whether that is
# proved; of a crate that was proved before it says nothing, and goes on to the next.
proved() {
    awk -v crates="$crates" '
        BEGIN { all = split(crates, name, " "); for (k = 1; k <= all; k++) place[name[k]] = k }
        /^rt: chose --jobs [0-9]+ for / { now = $NF; if (place[now] - 1 > done) done = place[now] - 1 }
        /^logic=proved / && now in place { if (place[now] > done) { done = place[now]; print done, now } now = "" }
        END { print done + 0 }' "$log" 2>/dev/null
}

# Shows what is new. A crate that was proved before counts, and has no line of its own.
show() {
    now=$(date +%s) done=0
    while read -r count crate; do
        done=$count
        [ -n "$crate" ] && [ "$count" -gt "$shown" ] || continue
        [ -t 2 ] || echo "$command: $count of $all crates proved, $((now - began)) s: $crate" >&2
        last=$now
    done <<END
$(proved)
END
    shown=${done:-0}
    if [ -t 2 ]; then
        printf '\r%s: %s of %s crates proved, %s s ' "$command" "$shown" "$all" $((now - began)) >&2
    elif [ $((now - last)) -ge 60 ]; then
        echo "$command: $shown of $all crates proved, $((now - began)) s" >&2
        last=$now
    fi
}

trap 'ended=yes' TERM
pause
[ -z "$ended" ] || exit 0
echo "$command: $text" >&2
while [ -z "$ended" ] && read -r line <"/proc/$$/stat"; do
    set -- ${line##*) }
    [ "$2" = "$parent" ] || exit 0
    show
    pause
done
show
[ ! -t 2 ] || echo >&2
