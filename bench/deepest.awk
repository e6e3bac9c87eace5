# deepest.awk: reads a disassembly by objdump and prints of each function named planner_.. how many bytes below its return address the stack
# can go, with all that it calls, whatever the day. The depth before each instruction follows from the one before it and from the jumps to
# it; all ways have to agree, and a return has to find 0. Where the stack is moved otherwise than by push, pop, sub and add of a number, and a
# loop that touches a large frame, where a call isn't by name, or a function can call itself, the run ends with status 1. memcpy and memset are left out.
function max(a, b) { return a > b ? a : b }
function fail(what) { print "deepest.awk: " what " in " name > "/dev/stderr"; failed = 1; exit 1 }

function whole(digits,    k, value) {
    for (k = 1; k <= length(digits); k++) value = 16 * value + index("0123456789abcdef", substr(digits, k, 1)) - 1
    return value
}

# A large frame is taken step by step, each step touched: r11 is set to where it ends, by `mov` and `sub` (LLVM) or by `lea` (gcc), and
# `sub $STEP,%rsp`, a store, `cmp %r11,%rsp` and `jne` back go on until it is reached. Of such a `sub`, how many bytes all steps take, else 0.
function touches(k,    end) {
    if (word[k] != "sub" || operand[k] !~ /^\$0x[0-9a-f]+,%rsp$/ || !checks_end(k + 2)) return 0
    end = operand[k - 1]
    if (word[k - 1] == "lea" && sub(/^-0x/, "", end) && sub(/\(%rsp\),%r11$/, "", end)) return whole(end)
    if (word[k - 2] != "mov" || operand[k - 2] != "%rsp,%r11") fail("steps to no end that is known")
    if (word[k - 1] != "sub" || !sub(/^\$0x/, "", end) || !sub(/,%r11$/, "", end)) fail("steps to no end that is known")
    return whole(end)
}

# The comparison and the jump that close such a loop.
function checks_end(k) { return word[k] == "cmp" && operand[k] == "%r11,%rsp" && word[k + 1] == "jne" }

# How many bytes deeper the stack is behind instruction k.
function moved(k,    number) {
    if (touches(k)) return touches(k)
    if (checks_end(k)) return 0
    if (word[k] == "push") return 8
    if (word[k] == "pop") return -8
    if (word[k] == "leave" || word[k] == "enter") fail(word[k])
    if (operand[k] !~ /,%rsp$/) return 0
    number = operand[k]
    if (word[k] !~ /^(sub|add)$/ || !sub(/^\$0x/, "", number) || !sub(/,%rsp$/, "", number)) fail(word[k] " " operand[k])
    return word[k] == "sub" ? whole(number) : -whole(number)
}

function arrive(k, bytes) {
    if (!(k in depth)) {
        depth[k] = bytes
        changed = 1
    } else if (depth[k] != bytes) {
        fail("two depths at " address[k])
    }
}

function follow(    k, bytes) {
    do {
        changed = 0
        for (k = 1; k <= count; k++) {
            if (!(k in depth)) continue
            bytes = depth[k] + moved(k)
            if (word[k] ~ /^j/ && operand[k] in place && !checks_end(k - 1)) arrive(place[operand[k]], bytes)
            if (word[k] == "jmp" && operand[k] ~ /^\*/) table = bytes
            if (word[k] != "jmp" && word[k] != "ret" && k < count) arrive(k + 1, bytes)
            if (word[k] == "ret" && depth[k] != 0) fail("a return at depth " depth[k])
        }
    } while (changed)
}

# The function read: what no jump by name leads to, but for the space between blocks, is a case of its jump by a table.
function finish(    k, target) {
    if (count == 0) return
    table = -1
    arrive(1, 0)
    follow()
    for (k = 2; k <= count; k++) {
        if (k in depth || word[k] ~ /^(nop|data16|cs|xchg|int3)/) continue
        if (table < 0) fail("code that nothing leads to, at " address[k])
        arrive(k, table)
        follow()
    }
    own[name] = calls[name] = 0
    for (k in depth) {
        own[name] = max(own[name], depth[k] + max(0, moved(k)))
        if (k in below) own[name] = max(own[name], depth[k] + below[k])
        if (word[k] == "call" && operand[k] ~ /^\*/) fail("call " operand[k])
        if (word[k] == "call" || (word[k] ~ /^j/ && operand[k] !~ /^\*/ && !(operand[k] in place))) {
            before[name, calls[name]] = depth[k] + (word[k] == "call" ? 8 : 0)
            callee[name, calls[name]++] = to[k]
        }
    }
}

function deepest(f,    k, bytes) {
    if (f in known) return known[f]
    name = f
    if (f in open) fail("a call of itself")
    if (!(f in own)) fail("no code")
    open[f] = 1
    bytes = own[f]
    for (k = 0; k < calls[f]; k++) if (callee[f, k] !~ /^mem(cpy|set)$/) bytes = max(bytes, before[f, k] + deepest(callee[f, k]))
    delete open[f]
    return known[f] = bytes
}

/^[0-9a-f]+ <.*>:$/ {
    finish()
    name = substr($2, 2, length($2) - 3)
    count = 0
    delete depth; delete place; delete below
    next
}
name != "" && /^ *[0-9a-f]+:/ {
    address[++count] = substr($1, 1, length($1) - 1)
    place[address[count]] = count
    word[count] = $2
    operand[count] = $3
    to[count] = substr($4, 2, length($4) - 2)
    # A function that calls nothing may use bytes below %rsp.
    if (match($0, /-0x[0-9a-f]+\(%rsp/)) below[count] = whole(substr($0, RSTART + 3, RLENGTH - 8))
}
END {
    if (failed) exit 1
    finish()
    for (f in own) if (f ~ /^planner_/) print f, deepest(f)
}
