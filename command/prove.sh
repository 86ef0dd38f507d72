# PARENT FOLDER AGAIN: has the kit prove, build and start the program of the crate in a folder, and once more with what it says in the file
# AGAIN, in a process group of its own (setsid); when the run that asked for it is no more, however it ended, all processes of this one end
# within a second, and with the kit's command what it started. So a killed run leaves nobody at work and no lock held.
(
    while read -r line <"/proc/$$/stat"; do
        set -- "$1" ${line##*) }
        [ "$3" = "$1" ] || kill -KILL "-$$"
        sleep 1
    done
) 9<&- >/dev/null 2>&1 &
unset RT_BACKEND RT_ALLOW_C # LLVM builds the program, and no C has a part in it
: >"$3" && cd "$2" && rt run && rt run >"$3" 2>&1
