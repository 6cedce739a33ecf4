# What an edit changes, a line for each 'old:' text, with tabs between: the label of its wrong answer, the file, the line of the text there (0 where
# there is none), what becomes of the line (same: it still says the same; names: it only imports or unfolds; other), where the answer is refused
# ('refused at:'), and why at a call ('refused at a call:'); a hyphen where the edit does not say.
#
# A line says the same if it is the same expression: what is added, multiplied, joined or compared in another order, sums and products of numbers
# worked out, a quotient by 1 and brackets that only group left out. The prover may refuse such a line, as a law does not fit it, and yet nothing
# is wrong.
# Usage: awk -v crate=FOLDER -v name=LABEL -f changes.awk EDIT
BEGIN { OPEN = "\002"; CLOSE = "\003"; BETWEEN = "\001"; label = name; at = why = "-" }
/^refused at: / { at = substr($0, 13); next }
/^refused at a call: / { why = substr($0, 20); next }
/^file: / { file = substr($0, 7); next }
/^old: / { old = substr($0, 6); next }
/^new:/ { new = substr($0, 5); sub(/^ /, "", new); change(); next }
/^[a-z_0-9]+: / { label = $1; sub(/:$/, "", label); at = why = "-" }

# As rt applies it: to the text as the changes before it left it.
function change(    line, i, where, here) {
    where = 0; antt = file !~ /^src\//
    if (!(file in lines)) {
        lines[file] = 0
        while ((getline line < (crate "/" file)) > 0) text[file, ++lines[file]] = line
        close(crate "/" file)
    }
    for (here = 1; here <= lines[file] && !where; here++) {
        i = index(text[file, here], old)
        if (!i) continue
        where = here
        line = substr(text[file, here], 1, i - 1) new substr(text[file, here], i + length(old))
        becomes = antt && text[file, here] ~ /^ *((pub )?use|unfolding|--) / ? "names" : said(text[file, here]) == said(line) ? "same" : "other"
        text[file, here] = line
    }
    printf "%s\t%s\t%d\t%s\t%s\t%s\n", label, file, where, where ? becomes : "other", at, why
}

# ---- a line as expressions, of Rattle or of antt
function said(line,    s) {
    read_tokens(line)
    s = ""
    while (p <= n) s = s " " level(1)
    return s
}
function read_tokens(s,    t) {
    n = 0; p = 1
    while (s != "") {
        if (match(s, /^[ \t]+/)) { s = substr(s, RLENGTH + 1); continue }
        if (s ~ (antt ? "^-- " : "^//")) break
        if (antt) t = match(s, /^[^][ \t(){},;]+/) ? substr(s, 1, RLENGTH) : substr(s, 1, 1)
        else if (match(s, /^b?'(\\.|[^\\'])'/) || match(s, /^b?"(\\.|[^\\"])*"/)) t = substr(s, 1, RLENGTH)
        else if (match(s, /^[A-Za-z0-9_]+/)) t = substr(s, 1, RLENGTH)
        else if (match(s, /^(\.\.=|<=|>=|==|!=|&&|\|\||<<|>>|=>|->|::|\.\.|\+=|-=|\*=)/)) t = substr(s, 1, RLENGTH)
        else t = substr(s, 1, 1)
        token[++n] = t
        s = substr(s, length(t) + 1)
    }
    token[n + 1] = token[n + 2] = ""
}
# operations, from the loosest to the tightest
function rank(t) {
    if (t == "||") return 1
    if (t == "&&") return 2
    if (t ~ /^(==|!=|<|>|<=|>=|≡)$/) return 3
    if (t == "|") return 4
    if (t == "^") return 5
    if (t == "&") return 6
    if (t ~ /^(<<|>>)$/) return 7
    if (t ~ /^[-+]$/) return 8
    if (t ~ /^[*\/%]$/) return 9
    return 0
}
function level(r,    s, t, op, x) {
    if (r > 9) return primary()
    s = level(r + 1); op = ""
    while (p <= n && rank(token[p]) == r) {
        t = token[p++]
        x = level(r + 1)
        if (t ~ /^(==|!=|≡)$/) s = joined(t, s BETWEEN x)
        else if (t ~ /^>=?$/) s = "(" x (t == ">" ? " < " : " <= ") s ")"
        else if (t ~ /^(<|<=)$/) s = "(" s " " t " " x ")"
        else if (r == 8) { s = (op == "" ? terms("+", s) : s) BETWEEN (t == "-" ? negated(x) : terms("+", x)); op = "+" }
        else if (t ~ /^(<<|>>|\/|%)$/) {
            if (op != "") s = joined(op, s)
            if (t != "/" || x != 1) s = "(" s " " t " " x ")"
            op = ""
        }
        else { s = (op == "" ? terms(t, s) : s) BETWEEN terms(t, x); op = t }
    }
    return op == "" ? s : joined(op, s)
}
function primary(    s, t) {
    t = token[p++]
    if (antt) {
        s = atom(t)
        while (t ~ /[A-Za-z0-9(]/ && p <= n && token[p] ~ /[A-Za-z0-9(]/) s = s " " atom(token[p++])
        return s
    }
    if (t ~ /^[-!&*]$/) { if (token[p] == "mut") { p++; t = t "mut " } return t "(" primary() ")" }
    if (t == "(") { s = list(")"); if (s ~ /;/) s = "(" s ")" }
    else if (t == "[") s = "[" list("]") "]"
    else if (t ~ /^(if|else|match|while|loop|for|in|let|mut|return|break|continue|fn|pub|const)$/) return t
    else if (t ~ /^[A-Za-z0-9_'"]/) s = number(t)
    else return t
    while (1) {
        t = token[p]
        if (t == "." || t == "::") { s = s t token[p + 1]; p += 2 }
        else if (t == "as") { s = "(" s " as " token[p + 1] ")"; p += 2 }
        else if (t == "(") { p++; s = s "(" list(")") ")" }
        else if (t == "[") { p++; s = s "[" list("]") "]" }
        else return s
    }
}
function atom(t,    s) {
    if (t != "(") return number(t)
    s = list(")")
    return s ~ /[ ;]/ ? "(" s ")" : s
}
function list(last,    s) {
    s = ""
    while (p <= n && token[p] != last) {
        if (token[p] == ",") { p++; s = s ";" } else s = s (antt && s ~ /[^;]$/ ? " " : "") level(1)
    }
    p++
    return s
}
function number(t,    v, i) {
    if (t !~ /^[0-9][0-9A-Fa-fx_]*$/) return t
    gsub(/_/, "", t)
    if (t !~ /^0x/) return t + 0
    v = 0
    for (i = 3; i <= length(t); i++) v = v * 16 + index("0123456789abcdef", tolower(substr(t, i, 1))) - 1
    return v
}
# What an operation that may be done in any order joins: OPEN, the operation, and its terms in one order with BETWEEN them, numbers among them as one.
function joined(op, s,    part, m, i, j, x, none, all) {
    m = parted(s, part); none = op == "*"; all = none; j = 0
    for (i = 1; i <= m; i++) {
        x = part[i]
        if (op == "+" && x ~ /^-?[0-9]+$/) all += x
        else if (op == "*" && x ~ /^[0-9]+$/) all *= x
        else part[++j] = x
    }
    if (all != none || j == 0) part[++j] = all ""
    m = j
    for (i = 2; i <= m; i++) {
        x = part[i] ""
        for (j = i - 1; j >= 1 && part[j] "" > x; j--) part[j + 1] = part[j]
        part[j + 1] = x
    }
    if (m == 1) return part[1]
    s = part[1]
    for (i = 2; i <= m; i++) s = s BETWEEN part[i]
    return OPEN op s CLOSE
}
# The terms of an operation inside one of the same kind are that one's.
function terms(op, s) {
    if (substr(s, 1, length(op) + 1) != OPEN op || substr(s, length(s)) != CLOSE) return s
    return substr(s, length(op) + 2, length(s) - length(op) - 2)
}
function negated(s,    part, m, i) {
    m = parted(terms("+", s), part); s = ""
    for (i = 1; i <= m; i++) s = s (i > 1 ? BETWEEN : "") (part[i] ~ /^-/ ? substr(part[i], 2) : "-" part[i])
    return s
}
function parted(s, part,    m, i, c, depth) {
    m = 1; part[1] = ""; depth = 0
    for (i = 1; i <= length(s); i++) {
        c = substr(s, i, 1)
        if (c == OPEN) depth++
        if (c == CLOSE) depth--
        if (c == BETWEEN && depth == 0) part[++m] = ""
        else part[m] = part[m] c
    }
    return m
}
