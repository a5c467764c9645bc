# Counts the edges that were met, by the code that they belong to. Input, sorted by address: a symbol is a line 'address 0 symbol',
# an edge a line 'address 1 met'. An edge belongs to the last symbol before it. `missing` names a file for the edges that were not
# met in the proved code, by function.
$2 == 0 {
    symbol = $3
    next
}
{
    # The proved code's symbols are written crate::function; the Rust's are mangled and have the crate's name inside.
    if (symbol ~ /^watched_ciztarmo_/ || symbol ~ /^[a-z0-9_]+::/) part = "the proved code"
    else if (symbol ~ /abi_gen|abi_reflect/) part = "the unchanged Rust"
    else if (symbol ~ /attack_driver/) part = "the rules"
    else part = "library code in the Rust"
    all[part]++
    met[part] += $3
    if (part == "the proved code" && !$3) unmet[symbol]++
}
END {
    split("the proved code,the rules,the unchanged Rust,library code in the Rust", parts, ",")
    for (i = 1; i <= 4; i++) {
        part = parts[i]
        if (all[part] > 0) printf "attack: edges met in %s: %d of %d\n", part, met[part], all[part]
        else printf "attack: edges met in %s: not counted in this build\n", part
    }
    for (s in unmet) print unmet[s], s > missing
}
