# bureau and the launcher of the Debian package read this file with `.` to run the program, which a day at the desk needs watched.

# Takes standard error from this shell if it is closed, or if it is a file that an argument names, as by `2>> shop.pack`: what this
# shell prints would get into that file. `become` gives it to the program, which refuses such a file.
keep_apart() {
    given=open
    if [ ! -e /dev/fd/2 ]; then
        given=closed
        exec 2> /dev/null
    elif [ -f /dev/fd/2 ] && names_error "$@"; then
        given=named
        exec 7>&2 2> /dev/null
    fi
}

# Whether an argument, or what follows the first `=` in it, names the file that is standard error.
# shellcheck disable=SC3013
names_error() {
    for word; do
        if [ "$word" -ef /dev/fd/2 ] || [ "${word#*=}" -ef /dev/fd/2 ]; then
            return 0
        fi
    done
    return 1
}

# Prints what the system has about a descriptor of this shell: its flags, and its locks.
info_of() {
    cat "/proc/$$/fdinfo/$1" 2> /dev/null || true
}

# Whether each write to a descriptor of this shell goes to the end of its file.
appends() {
    info_of "$1" | grep -q '^flags:.*[2367]...$'
}

# Refuses standard output and standard error that are one file, opened twice, as by `> report 2> report`: each would write over the
# lines of the other. If both were opened at once, as by `2>&1`, a lock on one is a lock on the other. A file that is locked isn't
# tried, since its lock would be lost.
refuse_lost_lines() {
    # shellcheck disable=SC3013
    [ -f /dev/fd/1 ] && [ /dev/fd/1 -ef /dev/fd/2 ] || return 0
    ! appends 1 || ! appends 2 || return 0
    ! { info_of 1; info_of 2; } | grep -q '^lock:' || return 0
    flock -n 1 2> /dev/null || return 0
    twice=0
    flock -n 8 8>&2 2> /dev/null || twice=$?
    flock -u 1
    [ $twice -eq 1 ] || return 0
    # what is in the file stays
    ! appends 1 || exec 2>&1
    say "standard output and standard error are one file, opened twice, so each would write over the lines of the other; nothing is done: write > FILE 2>&1" || true
    exit 3
}

# Becomes the program, with the standard error that this shell was given. $ends_with is empty, or a command that runs the program so
# that it ends with this shell.
become() {
    case $given in
        open) exec ${ends_with-} "$(executable)" "$@" ;;
        closed) exec ${ends_with-} "$(executable)" "$@" 2>&- ;;
        named) exec ${ends_with-} "$(executable)" "$@" 2>&7 7>&- ;;
    esac
}

# Runs the day, and ends with its status. If a signal ends it, prints the lines of level 2 that weren't on standard output yet, and
# how to go on. The day is stopped by what stops this shell. No shell can pass KILL on; then the system ends the day, if setpriv (of
# util-linux) can ask it to.
operate_day() {
    signal=
    day=
    ends_with=
    ! setpriv --pdeathsig TERM -- true 2> /dev/null || ends_with="setpriv --pdeathsig TERM --"
    for stop in INT QUIT TERM HUP; do
        trap "end_day $stop" $stop
    done
    find_outputs "$@"
    log_before=
    [ -z "$log" ] || log_before=$(state_of "$log")
    save_before=
    [ -z "$save" ] || save_before=$(state_of "$save")
    # level 2's report, as long as standard output waits for level 1
    held=$(mktemp -t bureau-held.XXXXXX 2> /dev/null) || held=
    if [ -n "$held" ]; then
        shift
        set -- operate --held "$held" "$@"
    fi
    # a program in the background gets an empty standard input, unless it is given another one, and doesn't see control-C
    if [ -e /dev/fd/0 ]; then
        exec 8<&0
        become "$@" <&8 8<&- &
        day=$!
        exec 8<&-
    else
        become "$@" <&- &
        day=$!
    fi
    [ -z "$signal" ] || end_day "$signal"
    # the shell would report here that the day was killed
    status=0
    wait "$day" 2> /dev/null || status=$?
    while kill -0 "$day" 2> /dev/null; do
        status=0
        wait "$day" 2> /dev/null || status=$?
    done
    # a wait that a signal interrupts has the signal's status; 127 says that the day's own was had
    if [ -n "$signal" ]; then
        own=0
        wait "$day" 2> /dev/null || own=$?
        [ $own -eq 127 ] || status=$own
    fi
    if [ $status -gt 128 ]; then
        print_held
        tell_stopped "$@"
    fi
    [ -z "$held" ] || rm -f "$held"
    exit $status
}

# Prints level 2's report, if standard output hasn't got it.
print_held() {
    [ -z "$held" ] || [ ! -s "$held" ] || sed '1,/^:halts1$/d' "$held" 2> /dev/null || true
}

# Passes a signal on. A day can't refuse TERM.
end_day() {
    signal=$1
    [ -z "$day" ] || kill -s TERM "$day" 2> /dev/null || true
}

# Prints whether the pack is saved, and how to go on, after a day that a signal has ended. Its outputs are there already, so they need
# other names.
tell_stopped() {
    [ -n "$signal" ] || signal=$((status - 128))
    # the signal may have come at a prompt
    [ ! -t 2 ] || echo >&2 || true
    find_outputs "$@"
    if is_saved; then
        say "signal $signal has ended the program after the day: the pack is saved in $(quoted "$save"), so don't do the day again" || true
        return
    fi
    others=${outputs:+, with other names for ${outputs#, }}
    if [ -z "$log" ]; then
        again="to do it again, give the same command$others; with --log FILE the replies are kept for --redo"
    elif [ ! -s "$log" ] || [ "$(state_of "$log")" = "$log_before" ]; then
        again="no turn was taken; give the same command$others"
    else
        case $log in
            *[[:cntrl:]]*) redo="--redo with the name of the log, which has control characters" ;;
            -*) redo="--redo=$(quoted "$log")" ;;
            *) redo="--redo $(quoted "$log")" ;;
        esac
        again="to do it again with the replies so far, give $redo, and other names for --log$outputs"
    fi
    say "signal $signal has ended the day before its end; nothing is saved; $again" || true
}

# Whether the file of --save is another one than at the beginning: a save gives the name to a new file.
is_saved() {
    [ -n "$save" ] && [ "$(state_of "$save")" != "$save_before" ]
}

# Prints which file has a name, how long it is and when it was changed last; nothing if there is none.
state_of() {
    stat -Lc '%i %s %y' -- "$1" 2> /dev/null || true
}

# Prints a word as the shell reads it.
quoted() {
    case $1 in
        *[!A-Za-z0-9_./:,@%+=-]*) printf "'%s'" "$(printf '%s' "$1" | sed "s/'/'\\\\''/g")" ;;
        *) printf '%s' "$1" ;;
    esac
}

# Sets $log and $save to the files that --log and --save name, or to nothing, and $outputs to the other options that name outputs,
# unless these may be replaced.
find_outputs() {
    log=
    save=
    outputs=
    replaces=
    while [ $# -gt 0 ]; do
        case $1 in
            --log) log=${2-} ;;
            --log=*) log=${1#--log=} ;;
            --save) save=${2-} ;;
            --save=*) save=${1#--save=} ;;
            --overwrite) replaces=yes ;;
            --script | --paper | --deck-out1 | --deck-out2) outputs="$outputs, $1" ;;
            --script=* | --paper=* | --deck-out1=* | --deck-out2=*) outputs="$outputs, ${1%%=*}" ;;
        esac
        shift
    done
    [ -z "$replaces" ] || outputs=
}
