# Puts a trap in front of what a module of the library lets the compiler assume, as the undefined-behaviour sanitizer does for
# C: that sums, differences, products and narrowings keep their value, that a shift is below the width, that a divisor is not
# 0, and that some branches are never taken. Every function is marked for the address sanitizer. The last line on standard
# error has how many.
function broken(name) { printf "  call void @assumed.broken(i1 %s)\n", name; checks++ }

# %x = add nuw i64 %a, %b
$2 == "=" && $3 ~ /^(add|sub|mul)$/ && $4 ~ /^n[us]w$/ {
    type = $5; first = $6; second = $7
    sub(/,$/, "", first)
    pair = "{ " type ", i1 }"
    for (f = 4; $f ~ /^n[us]w$/; f++) {
        if (f > 4) { print "two assumptions of one sum: " $0 > "/dev/stderr"; exit 1 }
        name = substr($f, 2, 1) $3 ".with.overflow." type
        printf "  %s.wide = call %s @llvm.%s(%s %s, %s %s)\n", $1, pair, name, type, first, type, second
    }
    printf "  %s = extractvalue %s %s.wide, 0\n  %s.over = extractvalue %s %s.wide, 1\n", $1, pair, $1, $1, pair, $1
    broken($1 ".over")
    next
}

# %x = trunc nuw i64 %a to i32
$2 == "=" && $3 == "trunc" && $4 ~ /^n[us]w$/ {
    for (f = 4; $f ~ /^n[us]w$/; f++) wide[f] = ($f == "nuw") ? "zext" : "sext"
    from = $f; value = $(f + 1); to = $(f + 3)
    printf "  %s = trunc %s %s to %s\n", $1, from, value, to
    for (g = 4; g < f; g++) {
        printf "  %s.wide%d = %s %s %s to %s\n", $1, g, wide[g], to, $1, from
        printf "  %s.over%d = icmp ne %s %s.wide%d, %s\n", $1, g, from, $1, g, value
        broken($1 ".over" g)
    }
    next
}

# %x = shl i64 %a, %b
$2 == "=" && $3 ~ /^(shl|lshr|ashr)$/ {
    if ($4 !~ /^i[0-9]+$/) { print "an assumption of a shift: " $0 > "/dev/stderr"; exit 1 }
    printf "  %s.over = icmp uge %s %s, %d\n", $1, $4, $6, substr($4, 2)
    broken($1 ".over")
}

# %x = udiv i64 %a, %b
$2 == "=" && $3 ~ /^[us](div|rem)$/ && $6 ~ /^%/ {
    printf "  %s.zero = icmp eq %s %s, 0\n", $1, $4, $6
    broken($1 ".zero")
}

$1 == "unreachable" { broken("true") }

# A loaded truth value is 0 or 1: its narrowing is checked above, and the compiler is not to know beforehand.
{ sub(/, !range ![0-9]+/, "") }

/^attributes #0 = \{ nounwind / { sub(/nounwind/, "nounwind sanitize_address"); marked++ }

# The place after a sum of addresses is left to the address sanitizer, at the access.
/ n[us]w / && !/getelementptr inbounds nuw/ { print "an assumption not known here: " $0 > "/dev/stderr"; exit 1 }

{ print }

END {
    print "define internal void @assumed.broken(i1 %is) alwaysinline {"
    print "  br i1 %is, label %trap, label %hold"
    print "trap:\n  call void @llvm.trap()\n  unreachable"
    print "hold:\n  ret void\n}"
    if (marked != 1 || checks < 5) { print "the module is not of the form known here" > "/dev/stderr"; exit 1 }
    print checks " assumptions checked" > "/dev/stderr"
}
