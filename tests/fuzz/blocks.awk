# From `objdump -d --no-show-raw-insn` of the library: the offset of each basic block of the proved code, and its function. A block begins
# at a function's start, where a jump leads, and behind a jump or a return. What only a table of jumps leads to stands behind one of these.
/^[0-9a-f]+ <.*>:$/ {
    name = $2
    gsub(/^<|>:$/, "", name)
    ours = name !~ /^(_init|_fini|deregister_tm_clones|register_tm_clones|__do_global_dtors_aux|frame_dummy)$/
    begins = 1
    next
}
ours && /^ +[0-9a-f]+:\t/ {
    at = $1
    sub(/:/, "", at)
    padding = $2 ~ /^(nop|int3|data16|cs)/ || ($2 == "xchg" && $3 == "%ax,%ax")
    if (padding && begins) next
    place[++count] = at
    owner[at] = name
    if (begins) block[at] = 1
    begins = 0
    if ($2 ~ /^j/ || $2 == "notrack") {
        if ($3 ~ /^[0-9a-f]+$/) block[$3] = 1
        begins = 1
    }
    if ($2 ~ /^(ret|ud2|hlt)/) begins = 1
}
END {
    for (i = 1; i <= count; i++) if (place[i] in block) print place[i], owner[place[i]]
}
