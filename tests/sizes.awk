# Reads the sections, symbols and machine code of an archive for x86-64, as 'objdump -h -t -d -r -w --no-show-raw-insn' prints them, and
# prints for each call its code, its constants and its stack. What it cannot follow stops it with status 1.
#   code[f], constants[f]  bytes of one function's code, and the names of its constants
#   stack[f]               the deepest that f goes below the stack pointer at its first instruction, with all that it calls

function fail(what) {
    print "sizes: " what > "/dev/stderr"
    failed = 1
    exit 1
}

function number_of(hex,    i, n) {
    for (i = 1; i <= length(hex); i++) n = 16 * n + index("0123456789abcdef", substr(hex, i, 1)) - 1
    return n + 0
}

function with_commas(n) {
    return n < 1000 ? n : sprintf("%s,%03d", with_commas(int(n / 1000)), n % 1000)
}

# ---- reading

# A section of constants that is named after a function: the table of its switches.
/^ +[0-9]+ \.rodata\./ && $2 !~ /\.cst[0-9]+$/ { bytes[$2] = number_of($3); next }

# A symbol: its place, flags, section, size and name.
/^[0-9a-f]+ .*\t[0-9a-f]+ / {
    split($0, half, "\t")
    words = split(half[1], word, " ")
    name = substr(half[2], 18)
    if (word[words - 1] == "F") code[name] = number_of(substr(half[2], 1, 16))
    if (word[words] == "*UND*") asked[name] = 1
    # A constant's section is named after its size.
    if (word[words] ~ /^\.rodata\.cst[0-9]+$/) bytes[name] = substr(word[words], 12)
    next
}

# A function's first line.
/^[0-9a-f]+ <.*>:$/ {
    f = substr($2, 2, length($2) - 3)
    if (!(f in code)) fail("no size of " f)
    names[++functions] = f
    if (f ~ /^gerlyantu_/) calls[++exported] = f
    next
}

# An instruction, and what the linker is to put into it.
/^ +[0-9a-f]+:\t/ {
    split($0, part, "\t")
    at = part[1]
    gsub(/[ :]/, "", at)
    i = ++count[f]
    place[f, number_of(at)] = i
    split(part[2], word, " ")
    op[f, i] = word[1]
    args[f, i] = substr(part[2], length(word[1]) + 1)
    gsub(/^ +| *[#<].*$/, "", args[f, i])
    to = part[4]
    sub(/[-+]0x[0-9a-f]+$/, "", to)
    sub(/^\.text\./, "", to)
    refers[f, i] = to
    if (to in bytes) constants[f, to] = 1
}

# ---- the stack of one function

# How far an instruction moves the stack pointer down.
function moved(f, i,    o, a) {
    o = op[f, i]
    a = args[f, i]
    if (o == "push") return 8
    if (o == "pop") return -8
    if (a ~ /^\$0x[0-9a-f]+,%rsp$/ && (o == "sub" || o == "add")) return (o == "sub" ? 1 : -1) * number_of(substr(a, 4, length(a) - 8))
    if (a ~ /,%[er]?spl?$/ && o !~ /^(cmp|test)/ || o ~ /^(leave|enter|pushf|popf|xchg)/ && a !~ /^%ax,%ax$/) fail(f ": " o " " a)
    return 0
}

# How far below the stack pointer an instruction reads or writes.
function below(a) {
    if (!match(a, /-0x[0-9a-f]+\(%rsp/)) return 0
    return number_of(substr(a, RSTART + 3, RLENGTH - 8))
}

# Notes the depth at instruction i of f; the same on every way to it.
function arrive(f, i, d) {
    if (i > count[f]) fail(f ": goes on behind its end")
    if ((f, i) in depth) {
        if (depth[f, i] != d) fail(f ": two depths at one place")
        return
    }
    depth[f, i] = d
    waiting[++last] = i
}

function deeper(f, d) {
    if (d > stack[f]) stack[f] = d
}

# A call at depth d. Of a function that the archive asks for, only the return address is counted.
function enter(f, to, d) {
    if (to in asked) return deeper(f, d)
    if (!(to in code)) fail(f ": calls " (to == "" ? "what the code decides" : to))
    reaches[f, to] = 1
    deeper(f, d + stack_of(to))
}

function step(f, i, d,    o, target) {
    o = op[f, i]
    deeper(f, d + below(args[f, i]))
    if (o ~ /^ret/ && d != 0) fail(f ": returns from depth " d)
    if (o ~ /^(ret|ud2)/) return
    # A switch goes on, as deep as it is, where nothing else leads to; the language has no calls through pointers.
    if (o == "jmp" && args[f, i] ~ /^\*%/ && (".rodata." f) in bytes) {
        if (f in switched && switched[f] != d) fail(f ": switches at two depths")
        switched[f] = d
        return
    }
    if (o ~ /^j/) {
        target = args[f, i]
        if (target !~ /^[0-9a-f]+$/ || refers[f, i] != "" || !((f, number_of(target)) in place)) fail(f ": " o " " target)
        arrive(f, place[f, number_of(target)], d)
        if (o == "jmp") return
    }
    if (o == "call") called[f, i] = d + 8
    arrive(f, i + 1, d + moved(f, i))
    deeper(f, d + moved(f, i))
}

function follow(f,    i) {
    while (last > 0) {
        i = waiting[last--]
        step(f, i, depth[f, i])
    }
}

# Follows every way through f, then what it calls.
function stack_of(f,    i) {
    if (f in done) return stack[f]
    if (f in begun) fail(f ": calls itself")
    begun[f] = 1
    stack[f] = 0
    last = 0
    arrive(f, 1, 0)
    follow(f)
    for (i = 1; i <= count[f]; i++) {
        if ((f, i) in depth || op[f, i] ~ /^(nop|data16|cs|xchg|int3)/) continue
        if (!(f in switched)) fail(f ": no way leads to " op[f, i])
        arrive(f, i, switched[f])
        follow(f)
    }
    for (i = 1; i <= count[f]; i++) if ((f, i) in called) enter(f, refers[f, i], called[f, i])
    done[f] = 1
    return stack[f]
}

# ---- the table

# Marks f and all that it calls.
function mark(f,    i) {
    marked[f] = 1
    for (i = 1; i <= functions; i++) if ((f, names[i]) in reaches && !(names[i] in marked)) mark(names[i])
}

# Prints a row of what is marked.
function row(title, own, deepest,    i, c, all, fixed, seen) {
    for (i = 1; i <= functions; i++) {
        if (!(names[i] in marked)) continue
        all += code[names[i]]
        for (c in bytes) if ((names[i], c) in constants) seen[c] = 1
    }
    for (c in seen) fixed += bytes[c]
    print "| " title " | " own " | " with_commas(all) " | " with_commas(fixed + 0) " | " with_commas(deepest) " |"
}

END {
    if (failed) exit 1
    if (!exported) fail("no call found")
    print "| Call | Its own code | With all that it calls | Constants | Stack |"
    print "|---|---|---|---|---|"
    for (k = 1; k <= exported; k++) {
        f = calls[k]
        # The return address is the call's own.
        needed = 8 + stack_of(f)
        if (needed > most) most = needed
        split("", marked)
        mark(f)
        row("`" f "`", with_commas(code[f]), needed)
    }
    for (k = 1; k <= exported; k++) mark(calls[k])
    row("all " exported, "", most)
    for (a in asked) list = list " `" a "`"
    print ""
    print "Asked of the program:" list "."
}
