# Shows the place of a fault in a file, and what a document says of it. Run by tools/explain, with the
# numbers `line` and `column`, the name `kind`, whether the file's last line is `ended`, and the file
# and the document in the environment. All work is on bytes.

BEGIN {
    file = ENVIRON["EXPLAIN_FILE"]
    document = ENVIRON["EXPLAIN_DOCUMENT"]
    line += 0
    column += 0
    # The bytes that only go on in a character.
    for (i = 128; i < 192; i++) inner = inner sprintf("%c", i)
    read_document()
    if (!(kind in comes)) exit
    if (line > 0) {
        read_file()
        at = byte_of(text[line], column)
        show_place()
    }
    printf "%s: %s\n", kind, comes[kind]
    if (line == 0 || kind == "Inline" || kind == "NoCustom") say_instead(instead[kind])
    else if (document ~ /tcss\.md$/) explain_sheet()
    else if (document ~ /tree-file\.md$/) explain_tree()
    else say_instead(instead[kind])
}

# ---- the document

# Takes the rows of each table, told from the others by the first cell of its head.
function read_document(    row, cells, n, head, place) {
    head = ""
    while ((getline row < document) > 0) {
        if (row !~ /^\|/) { head = ""; continue }
        sub(/^\| */, "", row)
        sub(/ *\|$/, "", row)
        n = split(row, cells, / *\| */)
        if (head == "") { head = cells[1]; continue }
        if (row ~ /^---/) continue
        if (head == "kind" && !(cells[1] in comes)) { comes[cells[1]] = cells[2]; instead[cells[1]] = cells[n] }
        if (head == "case") { case_of[cells[1]] = cells[n] }
        if (head == "property") { properties++; names_of[properties] = cells[1]; takes[properties] = cells[2] }
        if (head == "place") may_stand[cells[1]] = cells[2]
        if (head == "value") { values++; value_of[values] = cells[1]; meaning[values] = cells[2] }
        if (head == "pseudo-class") pseudos = pseudos (pseudos == "" ? "" : ", ") cells[1]
        if (head == "variable") variables = variables (variables == "" ? "" : ", ") cells[1]
        if (head == "Textual" && n == 3) { signs++; sign[signs] = cells[1]; sign_kind[signs] = cells[2]; sign_instead[signs] = cells[3] }
    }
    close(document)
}

# ---- the file

function read_file(    row) {
    lines = 0
    while ((getline row < file) > 0) text[++lines] = row
    close(file)
}

# The byte at which the character of this column begins, from 1.
function byte_of(row, wanted,    i, n, seen) {
    n = length(row)
    for (i = 1; i <= n; i++) if (index(inner, substr(row, i, 1)) == 0 && ++seen == wanted) return i
    return n + 1
}

# A line with its place marked. Of a long line the part round the place is shown.
function show_place(    row, from, shown, under, i, c, n) {
    row = text[line]
    from = at > 80 ? at - 60 : 1
    while (from > 1 && index(inner, substr(row, from, 1)) > 0) from--
    n = length(row)
    if (n > from + 120) n = from + 120
    while (n < length(row) && index(inner, substr(row, n + 1, 1)) > 0) n++
    for (i = from; i <= n; i++) {
        c = substr(row, i, 1)
        if (i > from && is_control_pair(row, i - 1)) continue
        shown = shown (c ~ /[\001-\010\013-\037\177]/ || is_control_pair(row, i) ? "?" : c)
        if (i < at && index(inner, c) == 0) under = under (c == "\t" ? "\t" : (c ~ /[\343-\355\360]/ ? "  " : " "))
    }
    printf "%6d | %s%s%s\n", line, (from > 1 ? ".. " : ""), shown, (n < length(row) ? " .." : "")
    printf "       | %s%s^\n", (from > 1 ? "   " : ""), under
}

# Whether a control character of two bytes begins here, which a terminal may take for a command.
function is_control_pair(row, i) { return substr(row, i, 2) ~ /^\302[\200-\237]/ }

function say_instead(words) { if (words != "") printf "write instead: %s\n", words }

function say_case(name) {
    printf "here: %s\n", name
    say_instead(case_of[name])
}

# ---- sheets

function explain_sheet(    name) {
    walk()
    next_mark = mark_ahead()
    token = token_at(text[line], at)
    if (kind == "Expected") name = case_of_expected()
    else if (kind == "UnknownProperty" && next_mark == "{") name = "a rule begins inside a rule"
    else if (kind == "UnknownPseudo" && next_mark == ";") name = "a declaration stands outside a rule"
    else if (kind == "BadByte" && substr(text[line], at, 3) == "\357\273\277" && line == 1 && at == 1) name = "the file begins with a byte order mark"
    else if (kind == "BadByte" && substr(text[line], at, 1) !~ /[\001-\177]/ && !is_character(substr(text[line], at, 4))) name = "a byte isn't UTF-8"
    else if (kind == "BadByte" && substr(text[line], at, 1) !~ /[\001-\177]/) name = "a character outside ASCII stands outside a comment"
    if (name in case_of) {
        say_case(name)
        if (name == "a rule begins inside a rule") printf "the rule above begins in line %d\n", opened
        if (name == "a `;` is missing") printf "the declaration before it begins in line %d\n", declared
        return
    }
    if (kind == "BadValue") { explain_value(); return }
    if (kind == "Expected") { say_place(); return }
    if (!say_sign(token)) say_instead(instead[kind])
    if (kind == "UnknownProperty") say_properties()
    if (kind == "UnknownPseudo") printf "the pseudo-classes: %s\n", pseudos
    if (kind == "UndefinedVariable") printf "the variables of the theme: %s\n", variables
}

# Whether these bytes begin with a character of UTF-8 outside ASCII.
function is_character(bytes) {
    return bytes ~ /^([\302-\337][\200-\277]|\340[\240-\277][\200-\277]|[\341-\354\356\357][\200-\277][\200-\277]|\355[\200-\237][\200-\277]|\360[\220-\277][\200-\277][\200-\277]|[\361-\363][\200-\277][\200-\277][\200-\277]|\364[\200-\217][\200-\277][\200-\277])/
}

# Says what may stand in the part of the sheet in which the place is.
function say_place(    place) {
    if (part == "outside") place = "between rules"
    else if (part == "property") place = "after a property"
    else if (part == "definition") place = "in a definition"
    else place = "in " (part == "selector" ? "a " : (part == "rule" ? "a " : "")) part
    printf "here: %s\n", place
    say_instead(may_stand[place])
}

# Reads the sheet up to the place: whether it stands in a rule, in which part of it, and the property.
function walk(    i, j, n, row, c, comment) {
    part = "outside"
    for (j = 1; j <= line; j++) {
        row = text[j]
        n = j == line ? at - 1 : length(row)
        for (i = 1; i <= n; i++) {
            c = substr(row, i, 1)
            if (comment) { if (c == "*" && substr(row, i + 1, 1) == "/") { comment = 0; i++ } ; continue }
            if (c == "/" && substr(row, i + 1, 1) == "*") { comment = 1; i++; continue }
            if (c ~ /[ \t\r]/) continue
            step(c, j, i > 1 ? substr(row, i - 1, 1) : "")
            last = c
        }
    }
}

function step(c, row_number, before) {
    if (c == "{") { inside = 1; part = "rule"; opened = begun }
    else if (c == "}") { inside = 0; part = "outside" }
    else if (c == ";") part = inside ? "rule" : "outside"
    else if (c == ":" && part == "property") { part = "values"; filled = 0 }
    else if (c == ":" && part == "definition") { filled = 0; coloned = 1 }
    else if (part == "outside") { part = c == "$" ? "definition" : "selector"; coloned = 0; filled = 0; begun = row_number }
    else if (part == "rule") { part = "property"; property = c; declared = row_number }
    else if (part == "property") property = (before ~ /[A-Za-z0-9_-]/ ? property : "") c
    else filled = 1
}

# The first of `{`, `}` and `;` from the place on.
function mark_ahead(    i, j, n, row, c, comment) {
    for (j = line; j <= lines; j++) {
        row = text[j]
        n = length(row)
        for (i = j == line ? at : 1; i <= n; i++) {
            c = substr(row, i, 1)
            if (comment) { if (c == "*" && substr(row, i + 1, 1) == "/") { comment = 0; i++ } ; continue }
            if (c == "/" && substr(row, i + 1, 1) == "*") { comment = 1; i++; continue }
            if (c ~ /[{};]/) return c
        }
    }
    return ""
}

function token_at(row, from,    rest) {
    rest = substr(row, from, 200)
    if (match(rest, /^[#$]?[A-Za-z_][A-Za-z0-9_-]*/)) return substr(rest, 1, RLENGTH)
    if (match(rest, /^#[A-Za-z0-9_-]+/)) return substr(rest, 1, RLENGTH)
    if (match(rest, /^-?[0-9]*\.?[0-9]+(%|[A-Za-z]*)/)) return substr(rest, 1, RLENGTH)
    return substr(rest, 1, 1)
}

function case_of_expected(    end) {
    end = line > lines || (line == lines && at > length(text[line]))
    if (end) return part == "definition" ? "a definition has no `;`" : "the end comes too soon"
    if (inside && next_mark == "{") return "a rule begins inside a rule"
    if (last == "!") return "another word than `important`"
    if ((part == "values" || part == "definition") && !filled && token ~ /^[;}!]/) return "the values are missing"
    if (part == "values" && token == ":") return "a `;` is missing"
    if (part == "property" || (part == "definition" && !coloned)) return "a `:` is missing"
    if (part == "definition") return "a definition has no `;`"
    if (inside) return ""
    if (token == "}") return "a `}` is too many"
    if (token ~ /^#[0-9-]/) return "an id begins with a digit"
    if (next_mark != "{") return "a declaration stands outside a rule"
    if (token ~ /^[{,>]/) return "a selector is missing"
    if (token ~ /^[ \t\r\/]/ || substr(text[line], at - 1, 1) == "/") return "a blank stands inside a compound"
    return ""
}

# The names in backquotes of a cell, in `item`; how many there are.
function items(cell,    n) {
    n = 0
    while (match(cell, /`[^`]*`/)) {
        item[++n] = substr(cell, RSTART + 1, RLENGTH - 2)
        cell = substr(cell, RSTART + RLENGTH)
    }
    return n
}

# Whether a word fits a pattern in which `*` stands for any characters.
function fits(word, pattern,    star, tail) {
    star = index(pattern, "*")
    if (star == 0) return word == pattern
    if (substr(word, 1, star - 1) != substr(pattern, 1, star - 1)) return 0
    word = substr(word, star)
    pattern = substr(pattern, star + 1)
    for (tail = 1; tail <= length(word) + 1; tail++) if (fits(substr(word, tail), pattern)) return 1
    return 0
}

# Whether the text at the place begins so. A class's point stands before it.
function begins_at(words) {
    if (substr(words, 1, 1) == "." && at > 1) return substr(text[line], at - 1, length(words)) == words
    return substr(text[line], at, length(words)) == words
}

# Says what stands in the table of what Textual has for this word. Whether there was something.
function say_sign(word,    s, i, n) {
    for (s = 1; s <= signs; s++) {
        if (sign_kind[s] != kind) continue
        n = items(sign[s])
        for (i = 1; i <= n; i++)
            if (kind == "BadByte" ? begins_at(item[i]) : fits(word, item[i])) {
                printf "here: `%s`\n", (kind == "BadByte" ? item[i] : word)
                say_instead(sign_instead[s])
                return 1
            }
    }
    return 0
}

function say_properties(    p, i, n, all) {
    for (p = 1; p <= properties; p++) {
        n = items(names_of[p])
        for (i = 1; i <= n; i++) all = all (all == "" ? "" : ", ") item[i]
    }
    printf "the properties: %s\n", all
}

# ---- values

# The values from the place on, in `value`; a name with `(` counts with it, and without it.
function take_values(    j, i, n, row, t, count) {
    count = 0
    for (j = line; j <= lines; j++) {
        row = text[j]
        n = length(row)
        for (i = j == line ? at : 1; i <= n; i += length(t)) {
            t = token_at(row, i)
            if (t ~ /^[;}!]/) return count
            if (t ~ /^[A-Za-z_]/ && substr(row, i + length(t), 1) == "(") value[++count] = t "("
            if (t !~ /^[ \t\r,()]/) value[++count] = t
        }
    }
    return count
}

function explain_value(    p, i, n, v, found) {
    for (p = 1; p <= properties && !found; p++) {
        n = items(names_of[p])
        for (i = 1; i <= n; i++) if (item[i] == property) found = p
    }
    if (found) {
        printf "`%s` takes: %s; or `initial`\n", property, takes[found]
        for (v = 1; v <= values; v++)
            if (index(" " takes[found] " ", " " value_of[v])) printf "%s: %s\n", value_of[v], meaning[v]
    }
    say_wrong_value()
}

function say_wrong_value(    count, v, s, i, n, colon, wanted) {
    count = take_values()
    for (s = 1; s <= signs; s++) {
        if (sign_kind[s] != kind) continue
        n = items(sign[s])
        for (i = 1; i <= n; i++) {
            colon = index(item[i], ": ")
            if (colon && !fits(property, substr(item[i], 1, colon - 1))) continue
            wanted = colon ? substr(item[i], colon + 2) : item[i]
            for (v = 1; v <= count; v++)
                if (fits(value[v], wanted)) {
                    printf "here: `%s`\n", value[v]
                    say_instead(sign_instead[s])
                    return
                }
        }
    }
    say_instead(instead[kind])
}

# ---- tree files

function explain_tree(    name) {
    if (kind == "Expected") name = case_of_line(text[line])
    if (kind == "BadIndent" && text[line] ~ /^ *\t/) name = ""
    if (name in case_of) say_case(name)
    else say_instead(instead[kind])
}

function case_of_line(row,    bare, word, parts, n, i, seen) {
    if (lines == 0) return "the file is empty"
    if (line == 1 && substr(row, 1, 3) == "\357\273\277") return "the file begins with a byte order mark"
    if (row ~ /\r$/) return "the line ends with a carriage return"
    if (line == lines && ended == "no") return "the last line has no line feed"
    bare = row
    sub(/^ */, "", bare)
    word = bare
    sub(/ .*/, "", word)
    if (line == 1 && word != "Screen") return "the first line isn't the Screen"
    if (line > 1 && word == "Screen") return "a second Screen"
    if (word == "bind") return "a key or an action that there isn't"
    if (bare ~ /^(#|\/\/|\/\*|;)/) return "a comment"
    if (bare ~ /^[a-z]/) return "a name of a kind begins with a small letter"
    return case_of_parts(bare, word)
}

function case_of_parts(bare, word,    outside, parts, n, i, seen, quoted) {
    quoted = ""
    if (match(bare, /"([^"\\]|\\.)*"/)) quoted = substr(bare, RSTART, RLENGTH)
    else if (bare ~ /"/) return "a text has no end"
    if (quoted ~ /\\[^"\\n]/) return "an escape that there isn't"
    outside = bare
    gsub(/"([^"\\]|\\.)*"/, "\"\"", outside)
    sub(/ \{.*/, " {}", outside)
    if (outside ~ /  | $/) return "the line has a blank too many"
    if (outside ~ / \.-/) return "a class that begins with `-`"
    if (quoted == "\"\"") return "an empty text"
    if (outside ~ / '/) return "a text in other quotes"
    n = split(outside, parts, " ")
    for (i = 2; i <= n; i++) {
        if (parts[i] ~ /^\./ && (parts[i] in seen)) return "a class stands twice"
        seen[parts[i]] = 1
        if (parts[i] == "total" && parts[i + 1] ~ /^(0.*|100)$/) return "a total that isn't written"
        if (parts[i] == "on" && word != "Checkbox") return "`on` of another kind"
    }
    for (i = 2; i <= n; i++) if (parts[i] !~ /^([#.][A-Za-z_].*|disabled|on|total|[0-9]+|""|\{\})$/) return ""
    return n > 2 ? "parts in another order" : ""
}
