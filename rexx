#!/bin/sh
# The interpreter: ./rexx run FILE, ./rexx check FILE, and what help says. Where the program isn't built, or is older than its sources, it is
# built first; how far that is stands on standard error. Then this script becomes the program, in the caller's folder.
top=$(CDPATH='' cd -- "$(dirname -- "$0")" && pwd) || exit 1
proved=$top/crates/rx_cli/out/rx_cli
# Outside of the crates' folders, so that neither this script nor the toolchain takes it for the proved one.
unproved=$top/out/unproved/rx_cli

say() {
    printf 'rexx: %s\n' "$*" >&2
}

help() {
    cat << 'END'
Samdrulka, a proved interpreter for Open Object Rexx (whole-number profile)

  ./rexx run [--steps N] FILE [WORDS]  runs the program of a file, with WORDS as its argument
  ./rexx check FILE                    tells whether a source is a program of the language, and runs nothing
  ./rexx --unproved ..                 what stands behind it, run or check, by a trial build, of which nothing is proved
  ./rexx --help                        prints this
  ./rexx --version                     prints the commit and the toolchain

N is how many steps the run may take, from 1 to 10,000,000; where it isn't said, 1,000,000. FILE is absolute, or from the
working directory on. WORDS are joined by one blank each; without them there is no argument. The program reads standard
input line by line where it wants one. What doesn't run yet is refused with 240 and error 3.

The first run proves and builds the program, which takes about an hour.
The trial build is there in about a minute, and runs some 300 times slower.

Status  When
     0  the source that was checked is a program
 0-239  the run ended, and no error ended the main program: the value of its RETURN, else 0
     1  the interpreter could not be built
   127  the toolchain's command rt is not on the path
   240  the source is no program, or it has a clause that doesn't run yet (error 3)
   241  none of the live activities can go on
   242  the program took all its steps and had not ended
   243  the words are no request
   244  the file could not be read
   245  a line of the input was wanted and could not be read
   246  standard output or standard error failed
   247  a growth of memory was refused
   249  an error ended the main program
   250  the source has more than 4,194,304 bytes, or more than 250 brackets that are open at once
END
}

version() {
    # A copy without a history of its own can lie in another repository, whose commit would be a wrong one.
    commit=$([ -e "$top/.git" ] && git -C "$top" describe --always --dirty 2> /dev/null) || commit=unknown
    toolchain=$(rt version 2> /dev/null) || toolchain=unknown
    printf 'commit %s\ntoolchain %s\n' "$commit" "$toolchain"
}

# The crates that the program stands on, itself included. Libraries of the toolchain have no line.
crates() {
    awk '
        function add(name,    names, count, i) {
            if (name in found || !(name in below)) return
            found[name]
            print name
            count = split(below[name], names, " ")
            for (i = 1; i <= count; i++) add(names[i])
        }
        { sub(/#.*/, "") }
        split($0, sides, ":") == 2 { split(sides[1], words, " "); below[words[1]] = sides[2] }
        END { add("rx_cli") }
    ' "$top/crates.txt"
}

is_built() {
    [ -x "$1" ] || return 1
    names=$(crates) || exit 1
    for crate in $names; do
        newer=$(find "$top/crates/$crate" -name out -prune -o -type f \( -name '*.rt' -o -name '*.antt' \) -newer "$1" -print)
        [ -z "$newer" ] || return 1
    done
}

# Runs a command in the program's folder, its output in a log, and says how far it is. The caller's input stays unread.
attend() {
    (cd "$top/crates/rx_cli" && exec "$@") > "$room/log" 2>&1 < /dev/null &
    started="$started $!"
    seconds=0
    while kill -0 $! 2> /dev/null; do
        sleep 1
        seconds=$((seconds + 1))
        [ $((seconds % 10)) -eq 0 ] || continue
        line=$(tail -n 1 "$room/log")
        say "building, $seconds seconds${line:+: $line}"
    done
}

prove() {
    say 'proving and building the program, which takes about an hour the first time;' \
        './rexx --unproved has it in about a minute, with nothing proved'
    attend rt run
    # The build ends with a run without words, which the program refuses.
    [ "$(tail -n 1 "$room/log")" = 'REX243 words' ] && touch -r "$room/began" "$proved"
}

# `rt try` builds the program in a folder for passing files, runs it there and keeps nothing. So its file is a pipe here. The
# copy begins when the program has opened that, and at the copy's end the program sees the end of an empty source.
try() {
    say 'building the program with nothing proved, which takes about a minute'
    mkfifo "$room/source" || return
    { find "$room" -type f -name program -exec cp {} "$room/copy" \; -exec mv "$room/copy" "$room/rx_cli" \;; } > "$room/source" &
    started=$!
    attend env TMPDIR="$room" rt try -- run "$room/source"
    case $(tail -n 1 "$room/log") in
        'run=ended status=0 '*) ;;
        *) return 1 ;;
    esac
    touch -c -r "$room/began" "$room/rx_cli" && mkdir -p "${unproved%/*}" && mv "$room/rx_cli" "$unproved"
}

# Builds by the given one of these two, in a folder that is gone at the end, however this script ends.
build() {
    if ! command -v rt > /dev/null; then
        say 'the toolchain'"'"'s command rt is not on the path'
        exit 127
    fi
    mkdir -p "$top/out" && room=$(mktemp -d "$top/out/build.XXXXXX") || exit 1
    started=
    trap 'kill $started 2> /dev/null; wait; rm -rf "$room"' EXIT
    trap 'exit 130' INT
    trap 'exit 143' TERM HUP
    # What is edited from now on is newer than the program.
    : > "$room/began"
    if ! "$1"; then
        tail -n 20 "$room/log" >&2
        mv "$room/log" "$top/out/build.log"
        say "the program was not built; the whole log is $top/out/build.log"
        exit 1
    fi
    rm -rf "$room"
    trap - EXIT INT TERM HUP
    say 'built'
}

program=$proved way=prove
if [ "${1-}" = --unproved ]; then
    program=$unproved way=try
    shift
fi
case ${1---help} in
    --help) help; exit ;;
    --version) version; exit ;;
esac
is_built "$program" || build "$way"
[ "$program" = "$proved" ] || say 'unproved: nothing is proved of the program that runs now'
exec "$program" "$@"
