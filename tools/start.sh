# What the start scripts share. Each sets `name`, its program, and `top`, the repository. The words are checked here, before
# anything is built, so a wrong word gets its answer within a second.
program=$top/crates/$name/out/$name
docs=$top/docs
examples=$top/examples
packages=$top/bindings/python
# ./install puts built programs in place, without sources; this file has their version
installed=$top/installed
if [ -f "$installed" ]; then
    program=$top/bin/$name
    docs=$(dirname "$(dirname "$top")")/share/doc/nogcuvema/docs
    examples=$(dirname "$docs")/examples
fi

# the version; of the programs of --unproved it says so
version() {
    if [ -f "$installed" ]; then cat "$installed"; return; fi
    if [ -n "${unproved-}" ]; then echo "$(unproved='' version)-unproved"; return; fi
    sed -n 's/^## \([0-9][0-9.]*\).*/\1/p' "$top/CHANGELOG.md" | head -n 1
}

# refuse_words USAGE CAUSE: usage, what is wrong, and what SWAP is, with status 2
refuse_words() {
    echo "$name: usage: $1" >&2
    echo "$name: $2" >&2
    echo "$name: SWAP is ram:N, sparse:N, mirror:N, fuse:N:rK or fuse:N:wK, N slots from 1 to 65536, or as many as the script's sizes allow; $name --help says more" >&2
    exit 2
}

# once WORD VALUE: refuses a word that is given twice; VALUE is what the first one set
once() {
    [ -z "$2" ] || refuse_words "$usage" "$1 is given twice"
}

# is_number TEXT MOST: decimal digits, from 1 to MOST
is_number() {
    case $1 in '' | *[!0-9]*) return 1 ;; esac
    digits=$1
    while [ "${digits#0}" != "$digits" ]; do digits=${digits#0}; done
    [ -n "$digits" ] && [ ${#digits} -le ${#2} ] && { [ ${#digits} -lt ${#2} ] || ! [ "$digits" \> "$2" ]; }
}

# the most slots of an area in any machine; the limits of the script may allow fewer
most_slots=268435456

# is_swap WORD: the word names a swap area
is_swap() {
    slots=${1#*:}
    case $1 in
    ram:* | sparse:* | mirror:*) is_number "$slots" "$most_slots" ;;
    fuse:*:r* | fuse:*:w*) is_number "${slots%%:*}" "$most_slots" && is_number "${slots#*:[rw]}" 18446744073709551615 ;;
    *) false ;;
    esac
}

# check_swaps USAGE WORD...: one to eight words for swap areas
check_swaps() {
    usage=$1
    shift
    for word in "$@"; do
        is_swap "$word" || refuse_words "$usage" "no swap area: $word"
    done
    [ $# -gt 0 ] || refuse_words "$usage" "there is no swap area"
    [ $# -le 8 ] || refuse_words "$usage" "there are $# swap areas, and 8 at most"
}

# Prints the fault of the script on standard input, by the Python package.
explain_script() {
    if ! command -v python3 > /dev/null; then
        echo "$name: there is no command python3 on the path, which --explain needs" >&2
        exit 125
    fi
    PYTHONPATH=$packages exec python3 -B -m nogcuvema.explain
}

has_toolchain() {
    command -v rt > /dev/null && return
    echo "$name: there is no command rt, the toolchain's, on the path" >&2
    exit 125
}

# is_current PROGRAM: it is there, and no source is newer
is_current() {
    [ -x "$1" ] || return 1
    newer=$(find "$top/crates" "$top/crates.txt" -path '*/out' -prune -o \
        \( -name '*.rt' -o -name '*.antt' -o -name crates.txt \) -newer "$1" -print | head -n 1)
    [ -z "$newer" ]
}

# Prints what a program said on standard error. Where that is a terminal, a fault of the script ends with a hint; a test or another
# program gets the program's own text.
hint() {
    [ -t 2 ] || { cat >&2; return; }
    sed "s/^$name: line [0-9][0-9]*: .*/& (shmsim --explain says more)/" >&2
}

# run_program PROGRAM WORD...: runs a program in the place of this script, with `hint` where standard error is a terminal
run_program() {
    [ -t 2 ] || exec "$@"
    exec 3>&1
    text=$("$@" 2>&1 >&3 3>&-)
    status=$?
    [ -z "$text" ] || echo "$text" | hint
    exit "$status"
}

# Compiles the program without any proof, unless an earlier run did and no source is newer. The first time that compiles the other
# programs too.
compile_unproved() {
    if [ -f "$installed" ]; then
        echo "$name: --unproved runs the sources, and is for the repository: this program is installed" >&2
        exit 2
    fi
    program=$top/build/unproved/$name
    echo "$name: nothing is proved on this machine by this run" >&2
    is_current "$program" && return
    has_toolchain
    "$top/tools/unproved" "$name" || exit 125
}

# Proves and builds the program if it is missing, or older than a source.
build_current() {
    [ ! -f "$installed" ] || return 0
    is_current "$program" && return
    has_toolchain
    echo "$name: proving and building, once; --unproved gives an answer sooner" >&2
    if ! "$top/tools/build" "$name"; then
        echo "$name: not built" >&2
        exit 125
    fi
    touch "$program"
}

# Proves and builds the program, or compiles it without any proof, where --unproved asks for that.
make_program() {
    if [ -n "$unproved" ]; then compile_unproved; else build_current; fi
}
