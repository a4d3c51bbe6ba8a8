# Prints a crate, those that its line of crates.txt names, those that theirs name, and so on: awk -F : -v of=c62_tool -f closure.awk crates.txt

{ uses[$1] = $2 }

END {
    crates[count = 1] = of
    for (at = 1; at <= count; at++) {
        print crates[at]
        named = split(uses[crates[at]], names, " ")
        for (i = 1; i <= named; i++)
            if (names[i] ~ /^c62_/ && !found[names[i]]++)
                crates[++count] = names[i]
    }
}
