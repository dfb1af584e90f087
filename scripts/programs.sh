# The programs, and how one is started: for ./run, and for the command `gerlyantu` that ./install puts down. It is sourced by bash.

# A line a program: its name, the words that it takes after its name, what it reads, and what it writes.
programs='book|BOOK|a bookkeeper'"'"'s lines (book, release, strips, show)|an answer to each; it keeps the strip book in the file BOOK
desk||lines, each one call (the line help lists them)|a line for each
listing||a drawing file|its strip, the strokes that are kept and their count
pen||lines of text (strip, move, line and close, in millimetres)|the drawing file that they tell
picture||a drawing file|its picture as an SVG
sheet||the file of a strip book|its sheet as an SVG: the table with the strips of both renters'

# kit: where the toolchain is; one line where it is missing.
kit() {
    local rt
    if [ -n "${RATTLE_HOME:-}" ]; then
        printf '%s\n' "$RATTLE_HOME"
    elif rt=$(command -v rt); then
        dirname -- "$(dirname -- "$(readlink -f -- "$rt")")"
    else
        echo "The Rattle toolchain is missing: there is no rt on the path. See 'What you need' in the README.md of Gerlyantu." >&2
        return 1
    fi
}

# tools KIT: the folder of the kit's compiler, linker, loader and C library; a kit for several processors has one for each.
tools() {
    local own=$1/on/$(uname -m)/toolchain
    [ -d "$own" ] || own=$1/toolchain
    printf '%s\n' "$own"
}

# load_by KIT: sets `loader` to the words that run a program with the kit's loader and C library, and its emulator where the processor is another.
load_by() {
    local tools
    tools=$(tools "$1")
    loader=("$tools/lib/ld-linux-x86-64.so.2" --library-path "$tools/lib")
    [ ! -x "$tools/bin/qemu-x86_64" ] || loader=("$tools/bin/qemu-x86_64" "${loader[@]}")
}

# row NAME: the line of a program, or nothing and status 1.
row() {
    local line
    while IFS= read -r line; do
        [ "${line%%|*}" != "$1" ] || { printf '%s\n' "$line"; return; }
    done <<<"$programs"
    return 1
}

# about COMMAND: what there is.
about() {
    local name words reads writes text
    text="usage: $1 NAME < FILE"$'\n'"Runs a program on standard input:"$'\n'
    while IFS='|' read -r name words reads writes; do
        text+=$(printf '  %-10s reads %s and writes %s' "$name${words:+ $words}" "$reads" "$writes")$'\n'
    done <<<"$programs"
    said "${text}What is refused, a line that is not taken, and a read or write that fails are told in words on standard error; the status is then 1."
}

# about_program COMMAND NAME: what one program reads and writes.
about_program() {
    local name words reads writes
    IFS='|' read -r name words reads writes <<<"$(row "$2")"
    said "usage: $1 $name${words:+ $words} < FILE"$'\n'"$name reads $reads from standard input, and writes to standard output $writes."
}

# said TEXT: puts a text on standard output, or tells that it could not.
said() {
    printf '%s\n' "$1" 2>/dev/null || { echo "could not write" >&2; return 1; }
}

# chosen COMMAND NAME WORD..: ends here with usage, unless NAME is a program and takes that many words.
chosen() {
    local command=$1 name=${2-} line words wanted
    shift
    case ${1-} in
    --help | -h)
        about "$command"
        exit
        ;;
    '')
        about "$command" >&2
        exit 2
        ;;
    esac
    if ! line=$(row "$name"); then
        echo "$command: there is no program '$name'" >&2
        about "$command" >&2
        exit 2
    fi
    shift
    case ${1-} in --help | -h)
        about_program "$command" "$name"
        exit
        ;;
    esac
    IFS='|' read -r _ words _ <<<"$line"
    read -ra wanted <<<"$words"
    if [ $# -ne "${#wanted[@]}" ]; then
        if [ -z "$words" ]; then
            echo "$command: $name takes no word after its name, and reads standard input" >&2
        else
            echo "$command: $name takes this after its name: $words" >&2
        fi
        about_program "$command" "$name" >&2
        exit 2
    fi
}

# start NAME COMMAND..: runs a program by the command given. What it writes goes through unchanged; the status is 1 where it said anything on
# standard error, and 0 otherwise.
start() {
    local name=$1 ended
    shift
    # A standard descriptor that is closed would be given to the next file that is opened. One that cannot be read or written takes its place, and
    # the program tells that its read or write failed.
    { : 3<&0; } 2>/dev/null || exec 0>/dev/null
    { : 3>&1; } 2>/dev/null || exec 1</dev/null
    { : 3>&2; } 2>/dev/null || exec 2>/dev/null
    [ ! -t 0 ] || echo "$name reads standard input, which is the terminal here; Ctrl-D ends it" >&2
    # A pipe that nobody reads any more is a failed write, which the program tells, and no signal.
    trap '' PIPE
    # Where this script is stopped, its program is stopped too.
    ! setpriv --pdeathsig TERM true 2>/dev/null || set -- setpriv --pdeathsig TERM -- "$@"
    {
        "$@" 2>&1 >&3 3>&- | {
            IFS= read -r first && first+=$'\n'
            [ -n "$first" ] || exit 0
            { printf %s "$first" && cat; } >&2
            exit 1
        }
        ended=("${PIPESTATUS[@]}")
    } 3>&1
    if [ "${ended[0]}" -ne 0 ]; then
        stopped "$name" "${ended[0]}" >&2
        return 1
    fi
    return "${ended[1]}"
}

# stopped NAME STATUS: a program ends with 0, so whatever else is not its own doing.
stopped() {
    if [ "$2" -gt 128 ]; then
        echo "$1 was stopped by the signal $(kill -l $(($2 - 128)))"
    else
        echo "$1 could not be started (status $2)"
    fi
}
