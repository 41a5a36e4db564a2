# Looks up the quotations of comments in documents: awk -f find.awk DOCUMENT.md... FILE... Documents are cut into paragraphs, and all
# parts of a quotation stand in one of them, in order. Lines of a document that start with '>' are not its own words. The cells of a
# table's row are joined by ': '. Adjacent lines of comment are one comment.

FNR == 1 { end_paragraph(); end_comment(); file = FILENAME }

FILENAME ~ /\.md$/ {
    if (/^ *>/) next
    if (/^ *$/) { end_paragraph(); next }
    gsub(/\*\*/, "")
    if (/^\|/) { sub(/^\| */, ""); sub(/ *\| *$/, ""); gsub(/ *\| */, ": ") }
    paragraph = paragraph " " $0
    next
}

/^[ \t]*(--|\/\/)/ { sub(/^[ \t]*(--|\/\/)/, ""); add_comment($0); next }

{ end_comment() }

# a comment behind code
match($0, /[ \t](--|\/\/)[ \t]/) { add_comment(substr($0, RSTART + RLENGTH)); end_comment() }

END {
    end_comment()
    print quotations " quotations looked up in the documents: " (wrong ? wrong " wrong" : "all are there")
    exit wrong > 0
}

function plain(text) {
    gsub(/[ \t]+/, " ", text)
    sub(/^ /, "", text)
    sub(/ $/, "", text)
    return text
}

function end_paragraph() {
    if (paragraph != "") paragraphs[++known] = plain(paragraph)
    paragraph = ""
}

function add_comment(text) {
    begins[++lines] = length(comment) + 1
    number[lines] = FNR
    comment = comment " " plain(text)
}

# A quotation mark opens after a blank, a bracket or a mark that opens, and closes elsewhere: quotations may have others inside.
function end_comment(    i, mark, depth, from, before, opened) {
    before = " "
    for (i = 1; i <= length(comment); i++) {
        mark = substr(comment, i, 1)
        if (mark != "\"") opened = 0
        else if (opened = opened || before == " " || before == "(") { if (++depth == 1) from = i }
        else if (--depth == 0) look_up(substr(comment, from + 1, i - from - 1), line_at(from))
        else if (depth < 0) { complain(line_at(i), "a quotation ends that never began"); depth = 0 }
        before = mark
    }
    if (depth > 0) complain(line_at(from), "a quotation has no end")
    comment = ""
    lines = 0
}

function line_at(place,    i) {
    for (i = lines; begins[i] > place; i--) continue
    return number[i]
}

function look_up(quotation, line,    p) {
    quotations++
    for (p = 1; p <= known; p++) if (stands_in(paragraphs[p], quotation)) return
    complain(line, "not in the documents: \"" quotation "\"")
}

function stands_in(text, quotation,    parts, n, i, part, from, words) {
    n = split(quotation, parts, /\.\./)
    from = 1
    for (i = 1; i <= n; i++) {
        part = plain(parts[i])
        if (part == "") continue
        words = 1
        if (!(from = behind(text, part, from))) return 0
    }
    return words
}

# The place behind the first whole words of a text that are these, from a place on; 0 where there are none.
function behind(text, part, from,    at) {
    while (at = index(substr(text, from), part)) {
        from += at - 1
        at = from + length(part)
        if (!cut(text, from) && !cut(text, at)) return at
        from++
    }
    return 0
}

# Whether a word goes on over a place.
function cut(text, place) {
    return place > 1 && substr(text, place - 1, 2) ~ /^[A-Za-z0-9][A-Za-z0-9]$/
}

function complain(line, what) {
    wrong++
    print file ":" line ": " what
}
