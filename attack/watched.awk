# Makes the module's functions ones whose addresses are checked, and keeps them apart, so that an edge has its own function's name.
# Small copies become a load and a store, which the checks treat in place; a call for each would take most of the time.
/^attributes #[0-9]+ = \{ nounwind "probe-stack"/ {
    sub(/nounwind/, "noinline nounwind sanitize_address")
}
/^  call void @llvm\.memmove\.p0\.p0\.i64\(ptr [^,]*, ptr [^,]*, i64 [0-9]+, i1 false\)$/ {
    line = $0
    sub(/^  call void @llvm\.memmove\.p0\.p0\.i64\(ptr /, "", line)
    split(line, words, ", ")
    to = words[1]
    from = substr(words[2], 5)
    bits = 8 * substr(words[3], 5)
    printf "  %%copy.%d = load i%d, ptr %s, align 1\n", ++copies, bits, from
    printf "  store i%d %%copy.%d, ptr %s, align 1\n", bits, copies, to
    next
}
{ print }
