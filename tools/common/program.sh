#!/bin/sh
# Runs a program of this checkout, pip or the lab, which is the first word, with the other words. Where it isn't built
# yet, or a source is newer, it is proved and built first; what the prover says goes into a file that is named then.
# After the word --unproved it is what cargo builds of the export, or the reference: at once, and nothing is proved of
# it. Where it can't be built the status is 11, which it never answers. Which words are its forms it says by status 1.
name=$1
shift
here=$(dirname "$(dirname "$(dirname "$(readlink -f "$0")")")") || exit 11
case $name in
    lab) crate=pip_lab commands=pip_lab_commands first=merge reference=lab.py ;;
    *) crate=pip commands=pip_commands first=script reference=program.py ;;
esac
out=$here/crates/$crate/out
# What the proved program needs is not in here, so that rt has its folder for itself.
unproved=$here/out
exported=$unproved/rust/target/release/$crate

say() { echo "$*" >&2; }
fail() { say "$name can't be built: $*"; exit 11; }
has() { command -v "$1" >/dev/null; }

# is_new PROGRAM MARK SOURCE ..: whether the program is there, and neither a body, crates.txt, one of these sources, nor
# a folder out of which one was taken, is newer than the mark, which is as old as the beginning of the last good build
is_new() {
    [ -x "$1" ] && [ -e "$2" ] || return 1
    mark=$2
    shift 2
    [ -z "$(find "$here/crates.txt" "$here"/crates/*/src "$@" -newer "$mark" -print 2>/dev/null | head -n 1)" ]
}

is_proved() { is_new "$out/$crate" "$out/sources-seen" "$here"/crates/*/specs "$here"/crates/*/proofs; }
is_exported() { is_new "$exported" "$unproved/sources-seen" "$here/dev/export" "$here/dev/exporter"; }

# version: which text this is, and what is built of it
version() {
    echo "$name $(cat "$here/VERSION")"
    echo "commit $(git -C "$here" describe --always --dirty 2>/dev/null || sed -n 's/^commit  *//p' "$here/PROOF" 2>/dev/null)"
    rt version 2>/dev/null || echo "no kit: rt isn't in the PATH"
    if is_proved; then echo "proved"; elif is_exported; then echo "not proved: built by cargo"; else echo "not built"; fi
}

# refuse_unknown [WORD]: nothing is built for a first word that no form begins with. It gets what the program says to
# it, the usage line, which is taken from its source, and status 1
refuse_unknown() {
    usage=$(sed -n 's/^ *b"\(usage: .*\)\\n";$/\1/p' "$here/crates/$commands/src/top.rt" 2>/dev/null)
    [ -n "$usage" ] || return 0
    forms=$(echo "${usage#usage: * }" | tr '|' '\n')
    echo "$forms" | first_word=${1-} awk '$1 == ENVIRON["first_word"] { known = 1 } END { exit !known }' && return
    echo "$usage"
    exit 1
}

# show_progress: what progress.awk says: a line for each crate, for how far it is every 10 seconds, and as a sign of
# life each minute, until the build's mark is gone
show_progress() {
    last=''
    quiet=0
    while [ -e "$begun" ] && kill -0 $$ 2>/dev/null; do
        now=$(awk -v crate="$crate" -f "$here/tools/common/progress.awk" "$log" "$here/crates.txt" 2>/dev/null)
        if [ "$now" != "$last" ] && { [ "${now%%,*}" != "${last%%,*}" ] || [ "$quiet" -ge 10 ]; } || [ "$quiet" -ge 60 ]; then
            say "${now:-the prover has come to no crate yet}"
            last=$now
            quiet=0
        fi
        sleep 1 2>/dev/null
        quiet=$((quiet + 1))
    done
}

# build LOG MARK TARGET REPORT COMMAND ..: runs a command that builds, and answers whether it ended well. What it says
# goes into the log. The mark is as old as its beginning; until it ended its name is another, with this process in it
build() {
    log=$1 kept=$2 target=$3 report=$4 begun=$here/build-begun.$$.log reporter='' builder=''
    shift 4
    (: > "$begun") 2>/dev/null || fail "the folder $here can't be written"
    trap 'kill $reporter $builder 2>/dev/null; wait; rm -f "$begun"' EXIT
    trap 'say; say "stopped; what was done is kept, and the next ./$name goes on there"; exit 130' INT
    trap 'exit 129' HUP
    trap 'exit 131' QUIT
    trap 'exit 143' TERM
    say "Ctrl-C stops it; what is done by then stays done"
    (: > "$log") 2>/dev/null
    # Where nothing is reported there is no process, whose number another one could have by the end of the build
    [ "$report" = : ] || { "$report" 9>&- >/dev/null & reporter=$!; }
    "$@" </dev/null >"$log" 2>&1 9>&- &
    builder=$!
    wait "$builder"
    ended=$?
    # Over an empty input the lab says that no part is there, with status 9
    [ "$first:$ended" != merge:9 ] || ended=0
    [ -x "$target" ] || ended=1
    [ -z "$reporter" ] || kill "$reporter" 2>/dev/null
    [ $ended != 0 ] || mv "$begun" "$kept"
    rm -f "$begun"
    trap - EXIT INT HUP QUIT TERM
    [ $ended = 0 ] || { say "$name wasn't built. The end of $log:"; tail -n 15 "$log" >&2; }
    return $ended
}

rt_run() { cd "$here/crates/$crate" && exec rt run -- "$first"; }

prove() {
    say "proving and building $name; this takes a quarter of an hour or more, and what the prover says goes into $here/build.log"
    build "$here/build.log" "$out/sources-seen" "$out/$crate" show_progress rt_run
}

# cargo_build: writes the export, which compares its text with the sources, and builds both programs of it
cargo_build() {
    cd "$here" && python3 -B dev/export --only pip pip_lab --to "$unproved/rust" && cd "$unproved/rust" &&
        CARGO_NET_OFFLINE=true exec cargo build --release -p pip -p pip_lab --target-dir target
}

export_and_build() {
    say "building pip and the lab of their export by cargo; this takes about a minute, and what cargo says goes into $unproved/build.log"
    build "$unproved/build.log" "$unproved/sources-seen" "$exported" : cargo_build
}

# in_turn FOLDER IS_DONE BUILD: one build at a time in a folder; a call that had to wait looks again what there is to do
in_turn() {
    { mkdir -p "$1" && (: >> "$1/lock"); } 2>/dev/null || fail "the folder $1 can't be written"
    if has flock; then
        exec 9>>"$1/lock"
        flock -n 9 || { say "another ./$name builds here; waiting for it"; flock 9; }
    fi
    "$2" || "$3"
    ended=$?
    exec 9>&-
    return $ended
}

run_reference() {
    say "unproved: the reference answers, a second telling of the model in Python, and nothing is proved of it"
    exec python3 -B "$here/dev/reference/$reference" "$@"
}

# run_unproved WORD ..: the program of the export, or the reference where cargo can't build it
run_unproved() {
    if ! is_exported; then
        refuse_unknown "$@"
        has python3 || { say "$name --unproved needs Python 3.9 or later: python3 isn't in the PATH"; exit 11; }
        has cargo || { say "cargo isn't in the PATH"; run_reference "$@"; }
        in_turn "$unproved" is_exported export_and_build || run_reference "$@"
    fi
    say "unproved: cargo built this program of the same text, and nothing is proved of it"
    exec "$exported" "$@"
}

case ${1-}:$# in
    -h:1 | --help:1) exec cat "$here/tools/common/$name.txt" ;;
    --version:1) version; exit ;;
    --built:1) # which programs are there, as new as the sources, a line each; the tools ask so
        ! is_proved || echo "proved $out/$crate"
        ! is_exported || echo "unproved $exported"
        exit 0 ;;
esac
if [ "${1-}" = --unproved ]; then shift; run_unproved "$@"; fi
if is_proved; then exec "$out/$crate" "$@"; fi
# A release for which no gate was run
if [ -e "$here/UNPROVED" ]; then run_unproved "$@"; fi
refuse_unknown "$@"
has rt || {
    say "$name can't be built: rt, the command of the Rattle kit, isn't in the PATH"
    say "put it there, or say ./$name --unproved $*: at once, by cargo or Python, and nothing is proved of it"
    exit 11
}
in_turn "$out" is_proved prove || exit 11
exec "$out/$crate" "$@"
