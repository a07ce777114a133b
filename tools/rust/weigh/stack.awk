# The most stack that a call of ENTRY takes, from a listing of `objdump -d` for thumb code: of each function what
# it pushes and takes off the stack pointer anywhere, and the deepest of those that it calls. What a listing
# cannot say, a call by a register, a frame by a register or a function that calls itself, stops it.
function stop(why) { print "stack: " why >"/dev/stderr"; exit failed = 1 }

function depth(name, i, n, parts, most, deep) {
    if (name in known) return known[name]
    if (name in open) stop(name " calls itself")
    open[name] = 1
    n = split(calls[name], parts, " ")
    for (i = 1; i <= n; i++) if ((deep = depth(parts[i])) > most) most = deep
    delete open[name]
    return known[name] = frame[name] + most
}

/^[0-9a-f]+ <.*>:$/ { name = substr($2, 2, length($2) - 3); next }
/-r[0-9]/ { stop("a range of registers in " name) }
$2 ~ /^push/ { frame[name] += 4 * (NF - 2) }
$2 == "sub" && $3 == "sp," { frame[name] += substr($4, 2) }
$2 == "add" && $3 == "sp," && $4 !~ /^#/ { stop("a frame by a register in " name) }
$2 == "blx" { stop("a call by a register in " name) }
$2 ~ /^b/ && match($0, /<[^>+]+>/) {
    target = substr($0, RSTART + 1, RLENGTH - 2)
    if (target != name) calls[name] = calls[name] " " target
}
END { if (!failed) print depth(ENTRY) }
