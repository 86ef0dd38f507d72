# Sourced by the commands of this project, which set `command` (a command's name) and `project` (its folder) before: one plain line
# where something cannot be done, the program of a crate proved and built from the sources as they stand, the files of a tile's
# directory, and a program run in a directory.
# A program that is up to date is run at once, without the kit's check: up to date means that the record beside it has the digest of all
# that it is built from (each file's content, never its time), the kit's identity, and the program's own digest.
unset CDPATH
case ${TMPDIR-} in /*) [ -d "$TMPDIR" ] && [ -w "$TMPDIR" ] || unset TMPDIR ;; *) unset TMPDIR ;; esac # one that is no place is none, to the kit too
state=$project/target/command # programs as they are run, CRATE-DIGEST, and for each crate a record of what it was built from
room='' job='' shower=''

note() { (trap '' PIPE; printf '%s: %s\n' "$command" "$1" >&2); }
fail() { # WHY: it could not be done
    note "$1"
    exit 2
}

# A name as it is shown: on one line.
shown() { printf '%s' "$1" | LC_ALL=C tr '\000-\037\177' '?'; }

# Lines to standard output. What cannot be written, to a reader that went away too, is no answer.
say() {
    trap '' PIPE
    { printf '%s\n' "$@"; } 2>/dev/null || fail "the answer could not be written"
}

# A directory as words that no option, CDPATH or `-` can be taken for.
path_of() {
    case $1 in
    /*) path=$1 ;;
    *) path=./$1 ;;
    esac
}

# A folder of this run's own, new and empty: $room.
make_room() {
    clear_room
    for place in "${TMPDIR:-/tmp}" /tmp /var/tmp "$state"; do
        room=$(mktemp -d -- "$place/$command.XXXXXX" 2>/dev/null) && return
    done
    room=''
    return 1
}
clear_room() {
    [ -z "$room" ] || rm -rf -- "$room"
    room=''
}

# However this run ends, what it started ends and what it made for itself goes.
leave() {
    [ -z "$job" ] || kill -KILL "-$job" 2>/dev/null
    [ -z "$shower" ] || end_child "$shower"
    clear_room
}

# Ends a process, only where it is still a child of this one: a number is given anew once its process is gone.
end_child() { # PID
    { read -r line <"/proc/$1/stat"; } 2>/dev/null || return 0
    set -- "$1" ${line##*) }
    [ "$3" != $$ ] || kill "$1" 2>/dev/null
}
trap leave EXIT
trap 'exit 129' HUP
trap 'exit 130' INT
trap 'exit 143' TERM

# ---- the kit

find_kit() {
    machine=$(uname -m)
    [ "$machine" = x86_64 ] || fail "the program and the Rattle kit are for x86-64, and this machine is $(shown "$machine")"
    asked=$(command -v rt) || fail "the Rattle kit's command rt is not there"
    # rt takes longer to say where its kit is than all else here: it is asked only where it does not stand in the kit itself
    kit=$(readlink -f -- "$asked") && kit=${kit%/bin/rt}
    if ! [ -f "$kit/KIT-ID" ] || ! [ -d "$kit/toolchain/lib" ]; then
        guide=$(rt doc 2>/dev/null) || fail "rt doc does not say where the kit is"
        kit=$(cd "${guide%/*}" && pwd -P) || fail "there is no kit where rt doc says"
    fi
    { read -r identity <"$kit/KIT-ID"; } 2>/dev/null || identity=$(rt version) || fail "rt version does not say which kit it is"
    identity="$identity on $machine"
    libraries=$kit/toolchain/lib # the loader and the C library that programs are linked with
}

# Runs $program in a directory, with nothing of this run's environment: $said is what it writes.
hear() { # DIR
    {
        said=$(cd -P -- "$1" && exec env -i "$libraries/ld-linux-x86-64.so.2" --library-path "$libraries" "$program")
    } </dev/null 2>/dev/null
}

# ---- what a program is built from

# The crates of the project that a crate stands on, and itself.
crates_of() { # CRATE
    awk -v wanted="$1" '
        function visit(n,    a, k, m) {
            if (!(n in deps) || (n in seen)) return
            seen[n] = 1
            m = split(deps[n], a, " ")
            for (k = 1; k <= m; k++) visit(a[k])
            print n
        }
        { sub(/#.*/, ""); i = index($0, ":"); if (i) { split(substr($0, 1, i - 1), said, " "); deps[said[1]] = substr($0, i + 1) } }
        END { visit(wanted) }' "$project/crates.txt"
}

# What the crate's program is built from and tried with, for `find` in the project's folder.
parts_of() { # CRATE
    echo crates.txt
    for crate in $(crates_of "$1"); do
        for part in src specs proofs stdin stdout args status data; do
            [ ! -e "$project/crates/$crate/$part" ] || echo "crates/$crate/$part"
        done
    done
}

# The digest of each of these files. There is none where one cannot be read, or is a link: the kit does not see what a link leads to.
sources_of() { # CRATE
    (
        cd "$project" || exit 1
        list=$(find $(parts_of "$1") -type l -exec false {} + -o -type f -exec sha256sum {} +) || exit 1
        list=$(printf '%s\n' "$list" | LC_ALL=C sort | sha256sum) || exit 1
        printf '%s\n' "${list%% *}"
    ) 2>/dev/null
}

# When the system last changed each file and folder of these crates, but for what the kit makes and the edits that it is to refuse: no
# command can set that time.
moments_of() { # CRATE
    (
        cd "$project" || exit 1
        list=$(find crates.txt $(crates_of "$1" | sed 's,^,crates/,') -regex 'crates/[^/]*/\(out\|must-fail\)' -prune -o -printf '%i %C@ %p\n') || exit 1
        printf '%s\n' "$list" | LC_ALL=C sort | sha256sum
    ) 2>/dev/null
}

digest_of() { # FILE
    digest=$(sha256sum <"$1") && digest=${digest%% *}
}

# Whether the record of a crate is of these sources and this kit and its program is there, whole; it is then $program.
up_to_date() { # CRATE
    sources=$(sources_of "$1") || fail "the sources of the program cannot be read, or one is a link"
    { { read -r built_from && read -r built_with && read -r made; } <"$state/$1"; } 2>/dev/null || return 1
    [ "$built_from" = "$sources" ] && [ "$built_with" = "$identity" ] || return 1
    program=$state/$1-$made
    { digest_of "$program"; } 2>/dev/null && [ "$digest" = "$made" ]
}

# ---- proving and building

show_progress() { # CRATE waiting|proving
    sh "$project/command/progress.sh" $$ "$command" "$state/$1.log" "$2" $(crates_of "$1") 9<&- &
    shower=$!
}
end_progress() {
    end_child "$shower"
    wait "$shower" 2>/dev/null
    shower=''
}

# The program of a crate, of the sources as they stand: $program.
ready() { # CRATE
    find_kit
    up_to_date "$1" || build "$1"
}

# The folders that the kit makes its work in, crates/*/out: whether they can be written.
make_outs() { # CRATE
    for crate in $(crates_of "$1"); do
        set -- "$project/crates/$crate"
        [ ! -d "$1" ] || { mkdir -p "$1/out" && [ -w "$1" ] && [ -w "$1/out" ]; } || return
    done
}

# One run at a time asks the kit. The lock is the kernel's, on the folder of the crates, and is held by the kit's command too: whoever is
# killed, it is free when nothing works in crates/*/out any more.
build() { # CRATE
    { mkdir -p "$state" && [ -w "$state" ] && make_outs "$1"; } 2>/dev/null ||
        fail "the program is not built from these sources yet, and $(shown "$project") cannot be written"
    for needed in flock setsid; do
        command -v "$needed" >/dev/null || fail "the program is to be built, and the command $needed (util-linux) is not there"
    done
    exec 9<"$project/crates"
    if ! flock -n 9; then
        show_progress "$1" waiting
        flock 9 &
        wait $! || fail "the project's folder crates cannot be locked"
        end_progress
    fi
    tries=0
    until up_to_date "$1"; do
        tries=$((tries + 1))
        [ "$tries" -le 4 ] || fail "$trouble"
        prove "$1"
    done
    exec 9<&-
}

# Asks the kit to prove and build, and keeps a copy of the program with the record of its sources: the sources as they were before, only
# where they are the same after and nothing was written meanwhile, and only where the kit, asked again, finds the program proved as it stands.
# So sources that were others for a while are not taken for those that were proved.
prove() { # CRATE
    log=$state/$1.log
    linked=$project/crates/$1/out/$1
    [ -f "$linked" ] || rm -f "$linked.stamp"
    { : >"$log"; } 2>/dev/null || fail "$(shown "$log") cannot be written"
    moments=$(moments_of "$1") && sources=$(sources_of "$1") || fail "the sources of the program cannot be read, or one is a link"
    show_progress "$1" proving
    setsid sh "$project/command/prove.sh" $$ "$project/crates/$1" "$log.again" >"$log" 2>&1 </dev/null &
    job=$!
    wait "$job"
    proved=$?
    job=''
    end_progress
    if [ "$proved" -ne 0 ]; then
        cat "$log" "$log.again" | tail -n 20 >&2
        fail "the program was not proved and built; the lines above say why, target/command/$1.log has all"
    fi
    trouble="the sources change while they are being proved"
    grep -q '^rt: nothing has changed since the last proved build' "$log.again" || return
    keep "$1"
}

keep() { # CRATE
    copy=$state/$1.new
    { cp "$linked" "$copy" && digest_of "$copy"; } 2>/dev/null || fail "the program that was built could not be kept in target/command"
    program=$copy
    if ! hear "$project/crates/$1/data" || [ "$said" != "$(cat "$project/crates/$1/stdout")" ]; then
        trouble="the program as built does not write what crates/$1/stdout has"
        rm -f "$linked.stamp" # what stands in out/ is not what was proved and tried: the next turn builds it anew
        return
    fi
    [ "$(sources_of "$1")" = "$sources" ] || return
    if [ "$(moments_of "$1")" != "$moments" ]; then
        # the same again, but not all the while: what the kit took them for is not known, and the next turn has it look anew
        (cd "$project/crates" && for crate in $(crates_of "$1"); do rm -f "$crate/out/rlib/stamp" "$crate/out/$crate.stamp"; done)
        return
    fi
    {
        chmod 755 "$copy" && mv -f "$copy" "$state/$1-$digest" &&
            printf '%s\n' "$sources" "$identity" "$digest" >"$state/$1.record" && mv -f "$state/$1.record" "$state/$1"
    } 2>/dev/null || fail "the program that was built could not be kept in target/command"
    # those of earlier sources, but for what a run that began before may still start
    find "$state" -name "$1-*" ! -name "$1-$digest" -mtime +1 -exec rm -f {} + 2>/dev/null
}

# ---- the files of a directory

stands() { [ -e "$1" ] || [ -h "$1" ]; }

# The file that is read as NAME in the directory $path: NAME itself where it is there, whatever it is; only without it one of the names
# that distribution media show. $chosen is its name, empty where there is none; $rivals two names where there are two.
choose() { # NAME UPPER
    chosen=$1 rivals=''
    stands "$path/$1" && return
    chosen=''
    for other in "$2" "$1." "$2.;1"; do
        stands "$path/$other" || continue
        [ -z "$chosen" ] || rivals="$chosen and $other"
        chosen=${chosen:-$other}
    done
}
