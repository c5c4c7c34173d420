# The stack of functions, read off an assembly text (x86-64, as clang writes it). WANTED, in the environment, has their names, a line each.
# For each of them that the text has, a line: its stack, its frame, its name, and the functions along its deepest way; tabs between.
# The status is 1 where the text has what this reading does not know: a call by address, another move of the stack, a cycle of calls.

function fail(what) {
    print "stack.awk: " what > "/dev/stderr"
    failed = 1
    exit 1
}

# A symbol as the source names it.
function plain(symbol) {
    sub(/@PLT$/, "", symbol)
    gsub(/"/, "", symbol)
    return symbol
}

# The function whose code f has: equal functions may be made one.
function body_of(f) { return (f in alias) ? alias[f] : f }

# What a call of f takes, from its return address down. A function that the text does not have is a library's: of it the return address
# alone counts. What f jumps to, at its end, has the place that f had.
function stack_of(f,    k, to, deep, deepest) {
    if (!(f in frame)) return 8
    if (f in stack) return stack[f]
    if (f in open) fail("no stack can be read off for " f ": it is called again from what it calls")
    open[f] = 1
    deepest = 8 + frame[f] + (calls[f] ? 0 : below[f])
    for (k = 1; k <= calls[f]; k++) {
        to = body_of(callee[f, k])
        deep = stack_of(to) + (jumped[f, k] ? 0 : 8 + frame[f])
        if (deep > deepest) {
            deepest = deep
            then[f] = to
        }
    }
    return stack[f] = deepest
}

# The functions of the text along the deepest way from f.
function way_from(f,    way) {
    while ((f in then) && (then[f] in frame)) {
        f = then[f]
        way = way (way == "" ? "" : ", ") f
    }
    return way
}

BEGIN { FS = "\t" }

{ sub(/[ \t]*#.*/, "") }

$2 == ".type" && $3 ~ /,@function$/ {
    sub(/,@function$/, "", $3)
    is_function[plain($3)] = 1
}

$2 == ".set" {
    split($3, pair, ", ")
    alias[plain(pair[1])] = plain(pair[2])
}

/^[^\t .].*:$/ {
    symbol = plain(substr($0, 1, length($0) - 1))
    if (symbol in is_function) {
        here = symbol
        frame[here] = calls[here] = below[here] = 0
        page_by_page = 0
    }
}

$2 ~ /^push/ { frame[here] += 8 }

# A large frame is taken page by page: %r11 is where its last whole page ends, and a loop ends there.
$2 == "subq" && $3 ~ /^[$][0-9]+, %r11$/ && before == "movq %rsp, %r11" {
    frame[here] += substr($3, 2) + 0
    page_by_page = 1
}

$3 ~ /, %rsp$/ && $2 !~ /^(addq|cmpq|testq)$/ {
    if ($2 != "subq" || $3 !~ /^[$][0-9]+,/) fail(here " moves the stack by '" $2 " " $3 "'")
    if (!page_by_page) frame[here] += substr($3, 2) + 0
}

$2 == "addq" && $3 ~ /^[$]-[0-9]+, %rsp$/ { fail(here " moves the stack by '" $2 " " $3 "'") }

$2 == "cmpq" && $3 == "%r11, %rsp" && !page_by_page { fail(here " takes its frame in a loop that is not read") }

$2 == "jne" { page_by_page = 0 }

# What calls nothing may use 128 bytes below its frame.
$3 ~ /-[0-9]+[(]%rsp/ {
    match($3, /-[0-9]+[(]%rsp/)
    bytes = substr($3, RSTART + 1, RLENGTH - 6) + 0
    if (bytes > below[here] && bytes <= 128) below[here] = bytes
}

$2 ~ /^call/ || ($2 ~ /^j/ && $3 !~ /^([.]L|[*])/) {
    if ($3 ~ /^[*]/) fail(here " calls by address, '" $3 "'")
    callee[here, ++calls[here]] = plain($3)
    jumped[here, calls[here]] = $2 ~ /^j/
}

$2 != "" { before = $2 " " $3 }

END {
    if (failed) exit 1
    count = split(ENVIRON["WANTED"], wanted, "\n")
    for (k = 1; k <= count; k++) {
        f = body_of(wanted[k])
        if (f in frame) printf "%d\t%d\t%s\t%s\n", stack_of(f), frame[f], wanted[k], way_from(f)
    }
}
