#!/bin/sh
# The stack that each export can take at most, whatever it is lent: the frames along the deepest chain of calls in its code and the
# 128 bytes that a function may use below its stack pointer, without what the host's memcpy, memmove and memset take. A function that
# calls itself walks a chain: of up to 128 object slots if it is mark_chain, else of up to 64 records, and one call more that finds
# the end. Prints an export, bytes and the chain a line. Fails on other recursion, on a call that it cannot follow and on a change of
# the stack pointer that it does not know. Usage: frames.sh LIBRARY
set -eu
lines=$(objdump -dr --no-show-raw-insn "$1" | awk '
    function fail(why) { print "frames.sh: " why > "/dev/stderr"; failed = 1; exit 1 }
    function number(hex,   i, v) {
        v = 0
        for (i = 3; i <= length(hex); i++)
            v = 16 * v + index("0123456789abcdef", substr(hex, i, 1)) - 1
        return v
    }
    function moved(by) { depth += by; if (depth > frame[f]) frame[f] = depth }
    function calls(g, tail) { count[f]++; callee[f, count[f]] = g; tails[f, count[f]] = tail; following = 0 }

    function levels(f) { return f ~ /mark_chain/ ? 129 : 65 }

    # bytes below the return address of f
    function total(f,   i, g, t, itself) {
        if (f in under_way)
            fail("recursion of " f)
        if (f in done)
            return done[f]
        under_way[f] = 1
        best[f] = frame[f]
        for (i = 1; i <= count[f]; i++) {
            g = callee[f, i]
            if (g == f) {
                itself = 1
                continue
            }
            if (!(g in frame) && g !~ /^mem(cpy|move|set)$/)
                fail(f " calls " g ", which is not in the library")
            t = g in frame ? total(g) : 0
            # a function that ends with a call has let go of its frame
            t += tails[f, i] ? 0 : frame[f] + 8
            if (t > best[f]) { best[f] = t; via[f] = g }
        }
        if (itself) {
            best[f] += (levels(f) - 1) * (frame[f] + 8)
            walks[f] = 1
        }
        delete under_way[f]
        return done[f] = best[f]
    }

    /^[0-9a-f]+ <.*>:$/ { f = substr($2, 2, length($2) - 3); frame[f] = 0; depth = 0; probing = 0; following = 0; next }
    f == "" { next }
    # the function that a call or jump leads to, unless the line before says it
    /R_X86_64_/ {
        if (following) {
            g = $3
            sub(/[-+]0x[0-9a-f]+$/, "", g)
            sub(/^\.text\./, "", g)
            calls(g, following == 2)
        }
        next
    }
    /^ *[0-9a-f]+:/ {
        op = $2; to = $3
        following = 0
        if (op ~ /^push/) moved(8)
        else if (op ~ /^pop/) moved(-8)
        # a large frame is touched step by step: its end is put in r11, then a loop takes as much at a time
        else if (op ~ /^sub/ && to ~ /^\$0x[0-9a-f]+,%r11$/) { moved(number(substr(to, 2, index(to, ",") - 2))); probing = 1 }
        else if (op ~ /^sub/ && to ~ /^\$0x[0-9a-f]+,%rsp$/ && probing) probing = 0
        else if (op ~ /^sub/ && to ~ /^\$0x[0-9a-f]+,%rsp$/) moved(number(substr(to, 2, index(to, ",") - 2)))
        # 128 bytes are taken by adding -128, which is shorter
        else if (op ~ /^add/ && to == "$0xffffffffffffff80,%rsp") moved(128)
        else if (op ~ /^add/ && to ~ /^\$0x[0-9a-f]+,%rsp$/) moved(-number(substr(to, 2, index(to, ",") - 2)))
        else if (to ~ /,%rsp$/ && op !~ /^(cmp|test)/ || op ~ /^(leave|enter)/) fail("unknown in " f ": " $0)
        else if (op ~ /^call/ && to ~ /^\*/) fail("a call by address in " f)
        else if (op ~ /^call/ && $4 !~ /\+/) calls(substr($4, 2, length($4) - 2), 0)
        else if (op ~ /^call/) following = 1
        else if (op ~ /^j/) following = 2
        # what comes after the end of a path has the whole frame again
        if (op ~ /^(ret|jmp)/) depth = frame[f]
    }
    END {
        if (failed) exit 1
        for (f in frame)
            if (f ~ /^kernel_/) {
                line = f " " total(f) + 128
                for (g = f; g in via; g = via[g])
                    line = line " " via[g] (via[g] in walks ? "*" levels(via[g]) : "")
                print line
            }
    }')
echo "$lines" | sort
