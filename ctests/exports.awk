# The exports of crates/capi/src/lib.rt as prototypes in C. A slice passes as a pointer and its length, a lent number as a pointer, a lent array
# as an array. C knows no lifetimes.
function in_c(type) {
    if (type == "usize")
        return "size_t"
    if (type ~ /^u(8|16|32|64)$/)
        return "uint" substr(type, 2) "_t"
    return "unknown " type
}

function parameter(name, type) {
    if (type ~ /^&\[[a-z0-9]+\]$/)
        return "const " in_c(substr(type, 3, length(type) - 3)) " *" name ", size_t " name "_len"
    if (type ~ /^&mut \[[a-z0-9]+\]$/)
        return in_c(substr(type, 7, length(type) - 7)) " *" name ", size_t " name "_len"
    if (type ~ /^&mut \[[a-z0-9]+; .*\]$/)
        return in_c(substr(type, 7, index(type, ";") - 7)) " " name "[" substr(type, index(type, ";") + 2)
    if (type ~ /^&mut /)
        return in_c(substr(type, 6)) " *" name
    return in_c(type) " " name
}

# NAME(PARAMETERS) -> ANSWER
function prototype(text,    inside, answer, count, i, field, fields, list) {
    answer = inside = text
    sub(/.*\) -> /, "", answer)
    sub(/[^a-z0-9].*/, "", answer)
    sub(/^[^(]*\( */, "", inside)
    sub(/,? *\) -> .*/, "", inside)
    count = split(inside, fields, /, */)
    for (i = 1; i <= count; i++) {
        split(fields[i], field, /: /)
        list = list (i > 1 ? ", " : "") parameter(field[1], field[2])
    }
    gsub(/model::MAX_AGENTS/, "SHARES_MAX_AGENTS", list)
    gsub(/model::MAX_SHEETS/, "SHARES_BOOK_SHEETS", list)
    return in_c(answer) " " substr(text, 1, index(text, "(")) list ");"
}

sub(/^pub extern "C" fn /, "") {
    taking = 1
    text = ""
}

taking {
    text = text $0
}

taking && /\) -> / {
    gsub(/<'[a-z]+>|'[a-z]+ /, "", text)
    print prototype(text)
    taking = 0
}
