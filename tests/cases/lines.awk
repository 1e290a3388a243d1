# The lines of a statement, for cases whose `make` computes them: awk -f "$CASES/lines.awk" -f - <<'END'

# The R line of a commodity in which a net quantity of futures of delta 1 is held. It has only scan risk: in scenario 13 if the quantity
# is long, in 11 if it is short.
function row_line(account, set, commodity, risk, net) {
    return sprintf("R,%s,%s,%s,%d,%d,0,0,0,0,%d\n", account, set, commodity, risk, net < 0 ? 11 : 13, risk)
}
