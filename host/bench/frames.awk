# The most stack that each exported function can use on any path, read off its machine code: the return address and all that
# is put below it, down to the deepest call. The walk goes from instruction to instruction, both ways at a branch. It ends
# with 1 after saying why where it cannot tell: the stack pointer is set by anything but a number, two ways meet at different
# depths, a jump or call goes where a register says, or a function reaches itself.
#
#   objdump -dr --no-show-raw-insn ARCHIVE | awk -f host/bench/frames.awk
#
# prints NAME BYTES for each function gt_... The C library's memset and memcpy count with their return address alone.

function cannot(why) {
    print "frames: " why > "/dev/stderr"
    failed = 1
    exit 1
}

function larger(a, b) { return a > b ? a : b }

# The number that hexadecimal digits say; sixteen of them say a negative one.
function number(digits,    value, i) {
    if (length(digits) == 16) return number(substr(digits, 9)) - 16 ^ 8
    for (i = 1; i <= length(digits); i++) value = value * 16 + index("0123456789abcdef", substr(digits, i, 1)) - 1
    return value
}

# The number by which `sub` or `add` changes the stack pointer.
function amount(rest) {
    if (rest !~ /^\$0x[0-9a-f]+,%rsp$/) cannot("the stack pointer is changed by " rest)
    return number(substr(rest, 4, length(rest) - 8))
}

# The depth behind an instruction, where it is `depth` before it.
function behind(word, rest, depth) {
    if (word == "push") return depth + 8
    if (word == "pop") return depth - 8
    if (word == "sub" && rest ~ /,%rsp$/) return depth + amount(rest)
    if (word == "add" && rest ~ /,%rsp$/) return depth - amount(rest)
    if (word ~ /^(enter|leave)/ || word == "xchg" && rest ~ /%rsp/) cannot("the stack pointer is set by " word)
    if (rest ~ /(^|,)%[re]?spl?$/ && word !~ /^(cmp|test)/) cannot("the stack pointer is set by " word " " rest)
    return depth
}

# The depth of what an instruction reads or writes below the stack pointer.
function reach(rest, depth) {
    if (!match(rest, /-0x[0-9a-f]+\(%rsp/)) return depth
    return depth + number(substr(rest, RSTART + 3, RLENGTH - 8))
}

# The function to which a call goes, or a jump out of its own function.
function callee(name, i,    to) {
    if (!((name, i) in relocated)) cannot(name " goes where a register says")
    to = relocated[name, i]
    sub(/^\.text\./, "", to)
    sub(/-0x[0-9a-f]+$/, "", to)
    return to
}

# The place in a function to which a jump goes; 0 where it leaves the function.
function target(name, i,    part) {
    split(operands[name, i], part, " ")
    return (name, i) in relocated || !((name, part[1]) in at) ? 0 : at[name, part[1]]
}

# The most stack of a function, its return address counted. Places whose paths are still to be gone stand in `waiting`.
function most(name,    i, depth, word, deepest, seen, waiting, from, n) {
    if (name == "memset" || name == "memcpy") return 8
    if (name in known) return known[name]
    if (name in begun) cannot(name " reaches itself")
    if (!(name in size)) cannot(name " is called and not there")
    begun[name] = 1
    waiting[n = 1] = 1
    from[1] = 8
    while (n > 0) {
        depth = from[n]
        for (i = waiting[n--]; ; i++) {
            if (i > size[name]) cannot(name " goes on behind its end")
            if (i in seen && seen[i] != depth) cannot("ways of two depths meet in " name)
            if (i in seen) break
            seen[i] = depth
            word = words[name, i]
            depth = behind(word, operands[name, i], depth)
            deepest = larger(deepest, reach(operands[name, i], depth))
            if (word == "call") deepest = larger(deepest, depth + most(callee(name, i)))
            if (word ~ /^j/ && target(name, i)) {
                waiting[++n] = target(name, i)
                from[n] = depth
            } else if (word ~ /^j/) {
                if (depth != 8) cannot(name " leaves from a depth of " depth)
                deepest = larger(deepest, most(callee(name, i)))
            }
            if (word == "ret" && depth != 8) cannot(name " returns from a depth of " depth)
            if (word ~ /^(jmp|ret|ud2|hlt)$/) break
        }
    }
    return known[name] = deepest
}

/^[0-9a-f]+ <.*>:$/ {
    here = substr($2, 2, length($2) - 3)
    if (here in size) cannot(here " is there twice")
    size[here] = 0
    if (here ~ /^gt_/) exported[++exports] = here
    next
}
/^ *[0-9a-f]+:\t/ {
    i = ++size[here]
    sub(/:$/, "", $1)
    at[here, $1] = i
    sub(/^[^ ]* /, "")
    # words before the instruction's own that change nothing here
    while ($1 ~ /^(data16|cs|rep|repz|repnz|lock|bnd|notrack)$/) sub(/^[a-z0-9]+ /, "")
    words[here, i] = $1
    sub(/^[^ ]+ */, "")
    operands[here, i] = $0
    next
}
/: R_X86_64_/ { relocated[here, size[here]] = $3 }

END {
    if (failed) exit 1
    if (!exports) cannot("no function gt_.. is there")
    for (e = 1; e <= exports; e++) print exported[e], most(exported[e])
}
