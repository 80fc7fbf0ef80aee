# For each block of a README the line that says how many lines stand where. `name` is the crate's.

# Whether the block's lines stand one after the other in the file, each behind the same blanks.
function stands(file,    line, text, length_of_text, from, i, indent, wanted) {
    while ((getline line < file) > 0) { sub(/\r$/, "", line); text[++length_of_text] = line }
    close(file)
    for (from = 1; from + count - 1 <= length_of_text; from++) {
        indent = substr(text[from], 1, length(text[from]) - length(block[1]))
        if (indent !~ /^ *$/) continue
        for (i = 1; i <= count; i++) {
            wanted = block[i] == "" ? "" : indent block[i]
            if (text[from + i - 1] != wanted) break
        }
        if (i > count) return 1
    }
    return 0
}

# Whether the file has a line with this text.
function has(file, text,    line, found) {
    while ((getline line < file) > 0) if (index(line, text)) found = 1
    close(file)
    return found
}

# The least number of blanks before a line that isn't empty goes from each line.
function dedent(    i, least, blanks) {
    least = -1
    for (i = 1; i <= count; i++) {
        if (block[i] == "") continue
        match(block[i], /^ */)
        if (least < 0 || RLENGTH < least) least = RLENGTH
    }
    for (i = 1; i <= count; i++) block[i] = substr(block[i], least + 1)
}

function judged(place,    part, file, function_name) {
    split(place, part, "`")
    file = part[2]
    function_name = part[4]
    if (!stands(file)) return "these " count " lines don't stand in " file
    if (function_name ~ /^fn / && !has(file, function_name)) return "no " function_name " in " file
    return count " lines of example in " file
}

/^```[a-z]/ { inside = 1; count = 0; next }
/^```$/ { inside = 0; waiting = 1; blocks++; next }
inside { block[++count] = $0; next }
waiting && /^`/ { waiting = 0; dedent(); print name ": " judged($0); next }
waiting && NF { waiting = 0; print name ": no file is named under an example" }
END { if (!blocks) print name ": no example" }
