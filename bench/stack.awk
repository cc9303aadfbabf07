# The most stack that each function of a program takes, its callees included, from `objdump -d`: a line
# 'bytes name' for each. Only callees whose names fit `own` are counted: a panic's way out is not the driver's.

/^[0-9a-f]+ <.*>:$/ {
    name = $0
    sub(/^[0-9a-f]+ </, "", name)
    sub(/>:$/, "", name)
    frame[name] = 0
    next
}

$2 == "push" { frame[name] += 8 }

$2 == "sub" && $3 ~ /^\$0x[0-9a-f]+,%rsp$/ {
    split($3, part, /[$,]/)
    frame[name] += hex(substr(part[2], 3))
}

# A call keeps its return address; a jump to another function comes when the frame is gone, and is counted as
# if it were not.
($2 == "call" || $2 ~ /^j/) && $NF ~ />$/ {
    target = $0
    sub(/^[^<]*</, "", target)
    sub(/(\+0x[0-9a-f]+)?>$/, "", target)
    if (target != name) calls[name] = calls[name] "\n" target
}

function hex(digits,    i, n) {
    for (i = 1; i <= length(digits); i++) n = n * 16 + index("0123456789abcdef", substr(digits, i, 1)) - 1
    return n
}

function depth(f,    list, n, i, most, d) {
    if (f in known) return known[f]
    known[f] = 0
    n = split(calls[f], list, "\n")
    for (i = 1; i <= n; i++) if (list[i] in frame && list[i] ~ own) {
        d = depth(list[i]) + 8
        if (d > most) most = d
    }
    return known[f] = frame[f] + most
}

END { for (f in frame) print depth(f), f }
