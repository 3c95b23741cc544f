# bureau and check read this file after kept.sh, for a program without waiting for its proof.

# Sets $made_from and $kind to the executable that fits the sources. Compiles it first if it isn't kept.
choose() {
    look
    until is_kept; do
        lock "$here/tools/lib/unproved"
        look
        is_kept || compile
        unlock
        look
    done
}

# Sources that the full check has proved need no run-time tests, whatever toolchain compiles them.
look() {
    made_from=$(sources)
    kind=proved
    ! is_kept || return 0
    kind=tested
    is_recorded "$made_from" || return 0
    kind=plain
    ! is_kept || return 0
    ! try_fits || kind=tested
}

# Prints what tools/lib/unproved depends on, apart from the sources: the kit, its place, and the tool itself.
circumstances() {
    echo "$(toolchain), $(readlink -f "$(command -v rt)"), $(sha256sum < "$here/tools/lib/unproved")"
}

# The file that names the circumstances in which tools/lib/unproved failed, so that `rt try` built the program in its place.
by_try() {
    echo "$kept/tested-$made_from/by-try"
}

# Whether the executable of `rt try` is kept and still fits. A new kit or a new tools/lib/unproved gets another attempt.
try_fits() {
    [ -x "$kept/tested-$made_from/bureau" ] && [ -e "$(by_try)" ] || return 1
    ! command -v rt > /dev/null || [ "$(circumstances)" = "$(cat "$(by_try)")" ]
}

compile() {
    need_toolchain
    log=$kept/log
    when_stopped="the compilation was stopped"
    mkdir -p "$kept"
    outcome=0
    if [ $kind = plain ]; then
        say "compiling the program without its proof: about two minutes on two processors"
        watch "$here/tools/lib/unproved" "$kept/unstamped" || outcome=$?
    else
        say "compiling the program without its proof, with run-time tests: two to three minutes on one processor"
        watch "$here/tools/lib/unproved" "$kept/unstamped" --tested || outcome=$?
    fi
    tried_for=
    [ $outcome -ne 3 ] || compile_by_try
    [ $outcome -eq 0 ] || { cat "$log" >&2 || true; say "the program doesn't compile"; exit $failed; }
    if [ "$made_from" = "$(sources)" ]; then
        keep "$kept/unstamped"
        [ -z "$tried_for" ] || echo "$tried_for" > "$(by_try)"
        say "compiled in $taken seconds"
    else
        say "the sources were changed while they were compiled"
    fi
    rm -f "$kept/unstamped"
}

# The status 3 of tools/lib/unproved says that it didn't find its way into the kit; its message says what it looked for.
compile_by_try() {
    cat "$log" >&2 || true
    say "tools/lib/unproved doesn't work with this kit, so rt try builds the program: the executable is slow and has run-time tests"
    kind=tested
    tried_for=$(circumstances)
    outcome=0
    watch "$here/tools/lib/unproved" "$kept/unstamped" --by-try || outcome=$?
}

progress() {
    echo "compiling"
}

# Prints which executable runs, unless it is a proved one. bureau does so only on a terminal, check always. samples/month-end/run
# knows the message by its first words.
tell() {
    case $kind in
        plain) say "runs without a proof made here; $(whose_proof)" ;;
        tested) say "runs without a proof, with run-time tests; $(why_tested)" ;;
    esac
}

whose_proof() {
    made=$(made_with)
    if [ "${made:-none}" = "$(recorded logic)" ]; then
        echo "the full check has proved these sources, and ./prove proves them here"
    else
        echo "PROVED is of the logic $(recorded logic), the toolchain that compiled this executable has ${made:-none}, and ./check --full proves these sources with this toolchain"
    fi
}

why_tested() {
    if is_recorded "$made_from"; then
        echo "tools/lib/unproved doesn't work with this kit, so rt try built it"
    else
        why_not_recorded "$made_from"
    fi
}
