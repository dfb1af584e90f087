# Proves and builds what is not proved yet, with a line for each crate as it is done. It is sourced by bash, after programs.sh.

# sums ROOT FILE: two sums on a line, over the sources' bytes and over those of what was made from them. Dates say nothing: a checkout may bring a
# change that is older than the program. What rt puts down in out/ is no source, though it has copies of some.
sums() {
    local sources made
    sources=$(find "$1/crates.txt" "$1/crates" -name out -prune -o -type f \( -name '*.rt' -o -name '*.antt' -o -name crates.txt \) -print0 | LC_ALL=C sort -z |
        xargs -0 cat -- | sha256sum)
    made=$(sha256sum <"$2")
    echo "${sources%% *} ${made%% *}"
}

# crates_below ROOT NAME..: the crates to be proved for these, each once.
crates_below() {
    awk -v asked="${*:2}" '
        /^[a-z]/ { split($0, part, ":"); sub(/ .*/, "", part[1]); own[part[1]] = part[2] }
        function take(crate, names, k, n) {
            if (!(crate in own) || crate in taken) return
            taken[crate] = 1
            print crate
            n = split(own[crate], names, " ")
            for (k = 1; k <= n; k++) take(names[k])
        }
        END { n = split(asked, first, " "); for (k = 1; k <= n; k++) take(first[k]) }' "$1/crates.txt"
}

# spoken SECONDS: a time in words.
spoken() {
    if [ "$1" -lt 60 ]; then echo "$1 s"; else echo "$(($1 / 60)) min $(($1 % 60)) s"; fi
}

# expected ROOT NAME: how long it took the last time, here or, as far as is known, on a machine of two cores.
expected() {
    local seconds
    if seconds=$(cat "$1/target/made/$2.seconds" 2>/dev/null); then
        echo "$(spoken "$seconds") the last time"
    elif seconds=$(awk -v name="$2" '$1 == name { print $2; found = 1 } END { exit !found }' "$1/scripts/seconds.txt"); then
        echo "about $(spoken "$seconds") from nothing on two cores"
    fi
}

# progress CRATES EDITS FIRST: from what rt says, a line for each crate as it is proved and for each wrong program as it is tried, which of how many;
# for the crates that are proved one after another, the seconds too. Before them the line FIRST, if there is one. The rest is passed over. (awk would
# wait for a block of input.)
progress() {
    local crates=$1 edits=$2 first=$3 line crate= found=0 kept=0 tried=0 began=$SECONDS
    told() {
        [ -z "$first" ] || echo "$first"
        [ "$kept" -eq 0 ] || echo "  $found of $crates: proved already"
        found=$((found + 1)) kept=0 first=
        echo "  $found of $crates: $1"
    }
    while IFS= read -r line; do
        if [[ $line =~ ^crate\ ([a-z_]+):\ modules ]]; then
            crate=${BASH_REMATCH[1]}
        elif [[ $line =~ ^logic=(proved|not-proved) && -n $crate ]]; then
            line=$crate
            [ "${BASH_REMATCH[1]}" = proved ] || line+=" NOT PROVED"
            told "$line, $((SECONDS - began)) s"
            crate= began=$SECONDS
        elif [[ $line =~ ^rt:\ [a-z_]+\ is\ kept:\  ]]; then
            found=$((found + 1)) kept=1
        elif [[ $line =~ ^rt:\ ([a-z_]+)\ (proved|NOT\ PROVED) ]]; then
            line="${BASH_REMATCH[1]} ${BASH_REMATCH[2]}"
            told "${line% proved}"
        elif [[ $line =~ ^rt:\ must-fail\ ([A-Za-z_0-9/]+)\.edit:\ (.*) ]]; then
            tried=$((tried + 1))
            echo "  wrong program $tried of $edits: ${BASH_REMATCH[1]} ${BASH_REMATCH[2]%%[,:(]*}"
        fi
    done
}

# proved ROOT NAME: a program is proved, and is what its sources make.
proved() {
    local root=$1 name=$2
    built "$root" "$name" "$root/target/bin/$name" program_made "$name"
}

# program_made NAME: proves and builds the program in its crate's folder, and puts it into target/bin. rt builds a program only to run it, so it is run
# once on no input; what rt says stands on standard error, and whether there is a program says whether it was proved.
program_made() {
    local made=crates/$1/out/$1
    rm -f "$made"
    (cd "crates/$1" && rt run </dev/null 2>&1 >/dev/null)
    [ -x "$made" ] && mkdir -p target/bin && cp "$made" "target/bin/$1.new" && mv "target/bin/$1.new" "target/bin/$1"
}

# archive_made NAME: the same for a static library, which stands in target/staticlib.
archive_made() {
    local made=crates/$1/out/lib$1.a
    rm -f "$made"
    (cd "crates/$1" && rt lib) && mkdir -p target/staticlib && cp "$made" target/staticlib/
}

# is_made ROOT FILE STAMP: the file is what was made from just these sources.
is_made() {
    [ -f "$2" ] && [ -f "$3" ] && [ "$(sums "$1" "$2")" = "$(cat "$3")" ]
}

# changed FILE STAMP: the file is not there, or is another than was made.
changed() {
    local sources made
    [ -f "$1" ] || return 0
    [ -f "$2" ] && read -r sources made <"$2" && [ "$(sha256sum <"$1")" != "$made  -" ]
}

# built ROOT NAME FILE COMMAND..: makes FILE of the crate NAME by the command, unless it was made from just these sources.
built() {
    local root=$1 name=$2 file=$3 stamp=$1/target/made/$2 began status total known
    shift 3
    ! is_made "$root" "$file" "$stamp" || return 0
    kit >/dev/null || return 1
    if ! { mkdir -p "$root/target/made" && : >>"$root/target/made/lock"; } 2>/dev/null; then
        echo "$name is not proved yet, and target/ cannot be written" >&2
        return 1
    fi
    # Two that prove in one folder at once hinder each other: the second waits here, and finds it done.
    exec 9>"$root/target/made/lock"
    flock -n 9 || { echo "another command is proving here; waiting for it" >&2; flock 9; }
    if is_made "$root" "$file" "$stamp"; then
        exec 9>&-
        return 0
    fi
    changed "$file" "$stamp" && rm -f "$file"
    total=$(crates_below "$root" "$name" | wc -l)
    known=$(expected "$root" "$name")
    known="$name is proved and built first, with all that it stands on: $total crates${known:+, $known}"
    # Where the file is there, it may well be that all is proved, and then there is nothing to say.
    [ -f "$file" ] || { echo "$known" >&2; known=; }
    began=$(date +%s)
    (cd "$root" && "$@") </dev/null 9>&- 2>&1 | tee "$stamp.log" | progress "$total" 0 "$known" >&2
    status=${PIPESTATUS[0]}
    if [ "$status" -ne 0 ]; then
        grep 'error\|NOT PROVED\|FAILED' "$stamp.log" | cut -c 1-300 | head -n 20 >&2
        echo "$name is not proved; all that was said is in target/made/$name.log" >&2
        exec 9>&-
        return 1
    fi
    # Only a proof from nothing says how long the next takes.
    [ "$(grep -c '^crate [a-z_]*: modules' "$stamp.log")" -lt "$total" ] || echo "$(($(date +%s) - began))" >"$stamp.seconds"
    sums "$root" "$file" >"$stamp"
    exec 9>&-
}
