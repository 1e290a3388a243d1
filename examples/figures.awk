# usage: span explain PARAMS POSITIONS | awk -F, -f figures.awk
#
# Recomputes the figures of each R and T line from the lines before it. Prints each line whose figures differ, and how many lines agree.
# awk computes in floating point, with about 15 digits.

function round_up(x) { x = sprintf("%.8f", x) + 0; return x > int(x) ? int(x) + 1 : x }

function size(x) { x = sprintf("%.8f", x) + 0; return x < 0 ? -x : x }

function larger(x, y) { return x > y ? x : y }

$1 == "SUMS" {
    active = 1
    for (scenario = 2; scenario <= 16; scenario++) if ($(4 + scenario) > $(4 + active)) active = scenario
    scan = larger($(4 + active), 0)
    intra = spot = net = weight = 0
}

$1 == "MONTH"  { net += $6 }
$1 == "INTRA"  { intra += $9 }
$1 == "SPOT"   { spot += $10 }
$1 == "INTER"  { weight += $8 * $9 }
$1 == "CREDIT" { credit = size(net) ? int($5 * weight / (1e4 * size(net))) : 0 }
$1 == "SHORT"  { minimum = $8 * ($7 == "SUM" ? $5 + $6 : larger($5, $6)) }

$1 == "R" {
    requirement = larger(scan + round_up(intra) + round_up(spot) - credit, minimum)
    total += requirement
    same = scan == $5 && active == $6 && round_up(intra) == $7 && round_up(spot) == $8
    same = same && credit == $9 && minimum == $10 && requirement == $11
}

$1 == "T" { same = total == $4; total = 0 }

$1 == "R" || $1 == "T" { if (same) count++; else print "otherwise:", $0 }

END { print count + 0, "lines as computed" }
