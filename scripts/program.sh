# What the scripts of the root share, to be read in by one that has set `here` to the root and `name` to its program's name and has the
# functions `usage` and `option`: the command line is read, the program is proved and built where it is not there or is older than the
# sources, then run, and a refusal is told. Exit status: 0 done, 1 refused, 2 wrong usage, and input or output that fails.

crate=$here/crates/$name
program=$crate/out/$name
script=./${0##*/}

say() { echo "$script: $*" >&2; }

# Wrong usage.
wrong() { # WORDS...
    say "$*"
    usage >&2
    exit 2
}

# --- The command line ---

board=
svg=
text=
has_text=
kept=

# Reads all words. The script's `option` sees those that are left, and sets `took` to how many are its own.
words() { # WORDS...
    while [ $# -gt 0 ]; do
        took=0
        case $1 in
        -h | --help)
            usage
            exit 0
            ;;
        esac
        option "$@"
        case $took$1 in
        0-*) wrong "no such option: $1" ;;
        0*) wrong "a word too many: $1" ;;
        esac
        shift "$took"
    done
}

# An option of those that draw: `board`, `svg`.
pictured() { # WORDS...
    case $1 in
    --board) board=yes took=1 ;;
    --svg)
        [ $# -ge 2 ] || wrong "--svg: no file is named"
        svg=$2 took=2
        ;;
    esac
}

# A text in place of standard input: `text`, `has_text`.
texted() { # WORDS...
    case $1 in
    -*) ;;
    *)
        [ -z "$has_text" ] || return 0
        text=$1 has_text=yes took=1
        ;;
    esac
}

# A command on the text: that of the command line, or standard input.
on_text() { # COMMAND WORDS...
    if [ -n "$has_text" ]; then
        printf '%s' "$text" | "$@"
    else
        "$@"
    fi
}

# --- The program ---

# `rt run` proves and builds the program, and runs it once, on nothing. A source that changes meanwhile counts as newer than the program,
# which gets the time at which the proof began.
build() {
    if ! command -v rt >/dev/null; then
        say "the program is not built, and rt, which proves and builds it, is not on the PATH"
        exit 2
    fi
    say "proving and building; the first time this takes some minutes"
    mkdir -p "$here/target"
    began=$here/target/$name.began
    touch "$began"
    rm -f "$program"
    said=$(cd "$crate" && rt run 2>&1 </dev/null) || true
    if [ ! -x "$program" ]; then
        printf '%s\n' "$said" | tail -n 20 >&2
        exit 2
    fi
    touch -r "$began" "$program"
}

# The program, built where that is needed, and what draws, where something is to be drawn.
ready() {
    if [ ! -x "$program" ] || [ -n "$(find "$here/crates" "$here/crates.txt" -name out -prune -o -newer "$program" -type f -print | head -n 1)" ]; then
        build
    fi
    [ -z "$board$svg" ] || drawer
}

# Before standard input is read: a word to who sits at a terminal. A folder is no input, and would be read as an empty text.
listen() { # WHAT KEYS
    if [ -t 0 ]; then
        say "reading $1 from the terminal; end it with $2, or see $script --help"
    elif [ -d /dev/stdin ]; then
        say "standard input is a folder"
        exit 2
    fi
}

# The program is for x86-64 Linux, as `rt` is.
run() { # WORDS...
    "$program" "$@"
}

# --- What is written ---

# What a refusal's number means, in the words of the Rust crate (`Refusal::meaning`, held to these by its tests).
meaning() { # NUMBER
    case $1 in
    1) echo "the text has over 4,096 bytes" ;;
    2) echo "the text has a byte of 128 or more" ;;
    3) echo "a point's letter is not A to O, or there is a second slash" ;;
    4) echo "behind a point's letter there is not just a number 1 to 15 of one or two digits" ;;
    5) echo "wrong length: a diagram line has over 15 cells" ;;
    6) echo "wrong number of lines: a diagram has 15" ;;
    7) echo "wrong line size: a diagram line has under 15 cells" ;;
    8) echo "no such point: its code is over 224 or a coordinate over 14" ;;
    14) echo "the game has more than 225 moves" ;;
    15) echo "the record is malformed" ;;
    16) echo "the record is in another view than 0" ;;
    20) echo "the SGF text is outside the subset that is read" ;;
    21) echo "the limit of attacks is not 1 to 6" ;;
    22) echo "a side has no stones, which stones text can't say" ;;
    *) echo "this script knows no words for it" ;;
    esac
}

# Lines on standard output. A write that fails ends the script: the shell says so, and the status is 2.
put() { # LINES
    printf '%s\n' "$1" || exit 2
}

# A refusal in words, on standard error.
explain() { # NUMBER
    echo "refused $1: $(meaning "$1")" >&2
}

# What a program wrote that tells a refusal on standard output, as `refused N` alone.
told() { # LINES
    put "$1"
    case $1 in
    'refused '*)
        explain "${1#refused }"
        exit 1
        ;;
    esac
}

# Runs a program that tells a refusal on standard error. What it writes goes past the shell to standard output; the last line that it says
# tells how it went. `refused N` then stands alone on standard output, but not where `bytes` is set: there any bytes would be a game.
converted() { # WORDS...
    status=0
    { said=$(run "$@" 2>&1 >&3) || status=$?; } 3>&1
    last=$(printf '%s\n' "$said" | tail -n 1)
    case $status$last in
    0) ;;
    '0refused '*)
        [ -n "${bytes-}" ] || put "$last"
        explain "${last#refused }"
        exit 1
        ;;
    *)
        printf '%s\n' "${said:-$script: the program ended with status $status}" >&2
        exit 2
        ;;
    esac
}

# The same for a program that writes text: it is put out, and stays in `written`.
wrote() { # WORDS...
    status=0
    written=$(converted "$@") || status=$?
    if [ "$status" = 0 ] || [ -n "$written" ]; then
        put "$written"
    fi
    [ "$status" = 0 ] || exit "$status"
}

# --- The board ---

# `picture`, an example of the Rust package, draws: what cargo does with it.
picture() { # VERB WORDS...
    verb=$1
    shift
    cargo "$verb" --offline --quiet --manifest-path "$here/rust/Cargo.toml" -p renju --example picture "$@"
}

# Builds it before anything is written, and says what it needs.
drawer() {
    if ! command -v cargo >/dev/null; then
        say "--board and --svg need Rust: the board is drawn by rust/renju, and cargo, which builds that, is not on the PATH"
        exit 2
    fi
    if [ -z "${RENJU_ARCHIVE-}" ] && [ ! -e "$here/target/staticlib/librenju.a" ]; then
        say "the Rust package that draws needs the archive of the proved functions; the first time this takes some minutes"
    fi
    if ! picture build </dev/null; then
        say "the Rust package that draws the board was not built"
        exit 2
    fi
}

# Keeps standard input, which is read by the program and then drawn.
keep() {
    if [ -n "$board$svg" ] && [ -z "$has_text" ]; then
        kept=$(mktemp)
        trap 'rm -f "$kept"' EXIT
        cat >"$kept" || exit 2
        exec <"$kept"
    fi
}

# Draws the board of the text on standard input as --board and --svg ask.
draw() { # OPTIONS...
    [ -n "$board$svg" ] || return 0
    [ -z "$kept" ] || exec <"$kept"
    picture run -- ${board:+--board} ${svg:+--svg "$svg"} "$@" || exit 2
}
