# bureau, prove and check read this file with `.`. It has the checksum of the sources, the record of the full check, and the
# executables that are kept. $here must be the top of the repository, and $name the first word of each message.
#
# An executable is kept under its kind and the checksum of its sources, so no command runs a stale one. Each has a folder of its
# own, because the program's usage prints the name of its file:
#     proved-CHECKSUM/bureau    proved on this machine
#     plain-CHECKSUM/bureau     compiled without its proof, from sources that the full check has proved
#     tested-CHECKSUM/bureau    compiled without its proof, with run-time tests: from all other sources
# `rt try` also makes executables of the kind `tested`, when tools/lib/unproved doesn't work with the kit. Then the folder has a
# file `by-try` in addition.

kept=$here/crates/bureau/out.kept
record=$here/PROVED
failed=70
stopped=130
# executables of each kind
most_kept=4

# Standard error may be full.
say() {
    printf '%s\n' "$name: $*" >&2 || true
}

# Prints the checksum of the sources that the proof reads. It covers the path of each.
sources() (
    cd "$here"
    {
        printf 'crates.txt\0HANDLES\0'
        find crates \( -name out -prune \) -o -type f \( -name '*.rt' -o -name '*.antt' \) -print0
    } | LC_ALL=C sort -z | xargs -0 sha256sum | sha256sum | cut -d ' ' -f 1
)

# Prints the line of `rt version`, or nothing without a toolchain.
toolchain() {
    rt version 2> /dev/null || true
}

# Prints the word after `logic` of the first line that is read, or nothing if the line has none. The logic is what a proof
# depends on: kits with different names may have the same one.
logic() {
    sed -n '1s/.*\blogic \([^ ,;]\{1,\}\).*/\1/p'
}

need_toolchain() {
    command -v rt > /dev/null || { say "no executable of these sources is kept, and the toolchain's command rt isn't found: put the bin folder of the Rattle kit on PATH"; exit $failed; }
}

# Prints what PROVED has after the word `sources` or `logic`.
recorded() {
    [ ! -e "$record" ] || sed -n "s/^$1 //p" "$record"
}

# Whether PROVED is of the sources with this checksum.
is_recorded() {
    [ "$1" = "$(recorded sources)" ]
}

# Prints why PROVED isn't of the sources with this checksum.
why_not_recorded() {
    if [ -e "$record" ]; then
        echo "PROVED isn't of these sources: their checksum is $1"
    else
        echo "there is no PROVED, the file with the checksum of the sources that the full check has proved"
    fi
}

# Writes PROVED for the sources with this checksum and the toolchain with this line. Nothing compares the kit's name.
record() {
    printf 'sources %s\nlogic %s\nkit %s\n' "$1" "$(echo "$2" | logic)" "${2%% *}" > "$record.new"
    mv -f "$record.new" "$record"
}

executable() {
    echo "$kept/$kind-$made_from/bureau"
}

is_kept() {
    [ -x "$(executable)" ]
}

# Prints the logic of the toolchain that made the executable, by its stamp.
made_with() {
    tail -n 1 "$(executable)" | logic
}

# Keeps a stamped copy of an executable of this kind, made from these sources, and removes the oldest of its kind.
keep() {
    case $kind in
        proved) how="proved where it was built" ;;
        plain) how="not proved where it was built, from sources that the full check has proved" ;;
        tested) how="not proved, with run-time tests" ;;
    esac
    mkdir -p "$kept/$kind-$made_from"
    "$here/tools/lib/stamp" "$1" "$(executable)" "$made_from, $(toolchain), $how"
    ls -t "$kept" | grep "^$kind-" | tail -n "+$((most_kept + 1))" | while read -r old; do rm -r "${kept:?}/$old"; done
}

# Takes the lock of this file, so that one build runs at a time: a second one waits for the first.
lock() {
    exec 9< "$1"
    flock -n 9 || { say "another build is going on here; waiting for it"; flock 9; }
}

unlock() {
    exec 9<&-
}

stop() {
    trap '' INT TERM HUP
    kill -s TERM -- "-$building" 2> /dev/null || kill -s TERM "$building" 2> /dev/null || true
    wait "$building" 2> /dev/null || true
    say "$when_stopped"
    exit $stopped
}

# Runs a build, with its messages in $log. The build has a process group of its own, so that a stop ends all its processes, and
# doesn't inherit the lock. Prints each half minute what `progress` prints. Sets $taken to the seconds, and returns the build's
# status.
watch() {
    setsid "$@" < /dev/null > /dev/null 2> "$log" 9<&- &
    building=$!
    trap stop INT TERM HUP
    start=$(date +%s)
    told=$start
    while kill -0 "$building" 2> /dev/null; do
        sleep 0.2
        now=$(date +%s)
        [ $((now - told)) -lt 30 ] || { told=$now; say "$((now - start)) seconds: $(progress)"; }
    done
    status=0
    wait "$building" || status=$?
    trap - INT TERM HUP
    taken=$(($(date +%s) - start))
    return $status
}
