# usage: awk -v accounts=N -v params=FILE -v positions=FILE [-v version=2] -f many-accounts.awk
#
# Writes a parameter set of realistic size, and the positions of N accounts, at most 1000002. The set has 64 commodities with 24 contracts,
# 6 tiers, 12 spreads and 2 spot months each, and 64 spreads between commodities. An account has 8 to 20 records. One account in three has
# some of its records after records of later accounts, and one in a thousand has some at the very end of the file. Names of accounts have
# different lengths, some begin with another name, and they are not sorted. The same arguments give the same files under every awk.

# A pseudo-random number from low to high.
function pick(low, high) {
    state = (state * 16807) % 2147483647
    return low + state % (high - low + 1)
}

function month(k) { return 202512 + (k > 0 ? 88 + k : 0) }

# Writes month m of commodity c: a future, a call and a put. A long future loses if prices fall.
function contracts_of(c, m,    kind, k, i, range, delta, values, move, loss) {
    range = 40000 + c * 2500 - m * 1500
    for (k = 1; k <= 3; k++) {
        kind = substr("FCP", k, 1)
        delta = kind == "F" ? 10000 : pick(1500, 8500)
        values = ""
        for (i = 1; i <= 16; i++) {
            move = i < 3 ? 0 : i < 15 ? (int((i + 3) / 4) * (i % 4 == 3 || i % 4 == 0 ? 1 : -1)) / 3 : i == 15 ? 1 : -1
            loss = kind == "P" ? move : -move
            if (kind != "F") loss = loss * delta / 10000 + (i % 2 ? -1 : 1) / 9
            values = values sprintf(",%d", loss * range)
        }
        if (version == 2) values = values "," (kind == "F" ? 0 : pick(500, 90000))
        printf "CONTRACT,C%02d%s%d,C%02d,%s,%d,%s%.4f,%s%s\n", c, kind, month(m), c, kind, month(m),
            (kind == "P" ? "-" : ""), delta / 10000, (m % 4 == 3 ? "0.5" : "1"), values >params
    }
}

BEGIN {
    if (version != 2) version = 1
    state = 20251114
    printf "SET,MANY%d,%d,USD\n", version, version >params
    for (c = 1; c <= 64; c++) printf "COMMODITY,C%02d,%d,%s\n", c, 2000 + c * 100, (c % 2 ? "SUM" : "MAX") >params
    for (c = 1; c <= 64; c++) {
        for (m = 0; m < 8; m++) contracts_of(c, m)
        for (t = 1; t <= 6; t++)
            printf "TIER,C%02d,%d,%d,%d\n", c, t, month(t - 1), month(t == 6 ? 7 : t - 1) >params
        # butterflies, then spreads of neighbouring tiers, then of tiers that are two apart, then one within the last tier
        for (s = 1; s <= 3; s++)
            printf "INTRA,C%02d,%d,%d,%d,A,1,%d,B,2,%d,A,1\n", c, s, 9000 + 100 * s, s, s + 1, s + 2 >params
        for (s = 4; s <= 8; s++)
            printf "INTRA,C%02d,%d,%d,%d,A,1,%d,B,1\n", c, s, 7000 + 100 * s, s - 3, s - 2 >params
        for (s = 9; s <= 11; s++)
            printf "INTRA,C%02d,%d,%d,%d,A,1,%d,B,1\n", c, s, 8000 + 100 * s, s - 8, s - 6 >params
        printf "INTRA,C%02d,12,6000,6,A,1,6,B,1\n", c >params
        for (m = 0; m < 2; m++) printf "SPOT,C%02d,%d,%d,%d\n", c, month(m), 3000 - m * 1000, 5000 - m * 1500 >params
    }
    for (s = 1; s <= 64; s++)
        printf "INTER,%d,%d,C%02d,A,%s,C%02d,B,1\n", s, 8500 - s * 50, s, (s % 5 ? "1" : "2.5"), s % 64 + 1 >params

    late = last = ""
    for (a = 1; a <= accounts; a++) {
        name = "A" (a * 7919) % 1000003
        wide = pick(1, 6)
        first = pick(1, 64)
        for (n = pick(8, 20); n > 0; n--) {
            c = (first + pick(0, wide - 1) * (n % 2 ? 1 : 5)) % 64 + 1
            quantity = pick(1, 60) * (pick(0, 1) ? 1 : -1)
            record = sprintf("%s,C%02d%s%d,%d\n", name, c, substr("FFFCP", pick(1, 5), 1), month(pick(0, 7)), quantity)
            if (a % 3 == 0 && n % 5 == 0)
                late = late record
            else if (a % 1000 == 0 && n % 5 == 1)
                last = last record
            else
                printf "%s", record >positions
        }
        if (a % 700 == 0) {
            printf "%s", late >positions
            late = ""
        }
    }
    printf "%s%s", late, last >positions
}
