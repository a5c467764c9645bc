# Puts a fault into a module's text: changes the candidate with the number `which`, counted from 0. With which=-1 it prints how many
# candidates there are. A candidate is a comparison or a stored or added constant, in a function whose name begins with `only`; the
# change keeps the instruction's form.
function change(line) {
    if (line ~ / icmp ult /) sub(/ icmp ult /, " icmp ule ", line)
    else if (line ~ / icmp ule /) sub(/ icmp ule /, " icmp ult ", line)
    else if (line ~ / icmp (eq|ne) .*, [0-9]+$/) line = next_constant(line)
    else if (line ~ / icmp eq /) sub(/ icmp eq /, " icmp uge ", line)
    else if (line ~ / icmp ne /) sub(/ icmp ne /, " icmp ult ", line)
    else if (line ~ / = (add|sub|mul|udiv|urem|and|or|lshr|shl) .*, [0-9]+$/) line = next_constant(line)
    else if (line ~ / store i(8|64|32|16) [0-9]+, /) line = next_stored(line)
    else return ""
    return line
}
# The constant at the end of a line, one higher.
function next_constant(line,    at) {
    match(line, /[0-9]+$/)
    at = RSTART
    return substr(line, 1, at - 1) (substr(line, at) + 1)
}
# The stored constant: a byte that is 0 or 1 is turned, another is one higher.
function next_stored(line,    value, from) {
    match(line, / store i[0-9]+ [0-9]+, /)
    from = substr(line, RSTART, RLENGTH)
    split(from, words, " ")
    value = substr(words[3], 1, length(words[3]) - 1)
    return substr(line, 1, RSTART - 1) " store " words[2] " " (words[2] == "i8" && value <= 1 ? 1 - value : value + 1) ", " \
        substr(line, RSTART + RLENGTH)
}
/^define / { name = $0; sub(/^[^@]*@"?/, "", name); sub(/"?\(.*/, "", name) }
{
    changed = substr(name, 1, length(only)) != only ? "" : change($0)
    if (changed != "") {
        if (which == seen) {
            printf "%s: %s  ->  %s\n", name, $0, changed > "/dev/stderr"
            $0 = changed
        }
        seen++
    }
    if (which >= 0) print
}
END { if (which < 0) print seen + 0 }
