# What the crates' files say, laid out by `rt fmt`, for bin/guards and bin/promises, which read crates.txt, then the specs/, the
# src/ and the must-fail/ of crates/. In their END:
#   crate[i], to `listed`: the crates in crates.txt's order, those in `library` being no programs
#   name[n], to `functions`: the functions, NAME or TYPE::NAME; owner[n]: its crate; exported[n]: it is public; head[n], contract[n]
#   and body[n]: its lines; cited(n)
#   edit[e], to `edits`: the wrong programs, CRATE/NAME; place[e, k]: a line, PATH SUBSEP LINE, that e changes
#   in_body[PATH, LINE], in_constant[PATH, LINE], in_definition[PATH, LINE]: the function, the constant, and the definition of
#   specs/, to which a line belongs

# The name that a line of specs/ defines.
function defined(line) {
    sub(/^(unfoldable |abbrev )?(pub )?(record |data )?/, "", line)
    sub(/ .*/, "", line)
    return line
}

# `ghost use Rattle.CRATE.specs.FILE.{D, D as NAME};`: what names stand for in this file's contracts.
function take_names(line,    from, names, count, i, pair) {
    from = line
    sub(/^ghost use Rattle[^a-z]*/, "", from)
    sub(/[^a-z0-9_].*/, "", from)
    sub(/^[^{]*[{]/, "", line)
    sub(/[}].*/, "", line)
    count = split(line, names, /, /)
    for (i = 1; i <= count; i++) {
        if (split(names[i], pair, / as /) == 1) pair[2] = pair[1]
        if ((from, pair[1]) in definition) stands_for[this, pair[2]] = pair[1]
    }
}

# The definitions of specs/ that a function's contract cites, in their order.
function cited(n,    said, words, count, i, had, list) {
    said = contract[n]
    gsub(/(requires|ensures)[*]? [a-z0-9_]+ [{]/, "{", said) # no clause's own name
    gsub(/«[^»]*»|[.][A-Za-z0-9_]+/, " ", said) # no parameters, and no fields
    count = split(said, words, /[^A-Za-z0-9_]+/)
    for (i = 1; i <= count; i++)
        if ((owner[n], words[i]) in stands_for && !had[words[i]]++)
            list = list (list == "" ? "" : ", ") "`" stands_for[owner[n], words[i]] "`"
    return list
}

FNR == 1 {
    this = FILENAME
    sub(/^crates\//, "", this)
    sub(/\/.*/, "", this)
    part = type = constant = ""
    places = 0
}

FILENAME == "crates.txt" && /^[a-z]/ {
    crate[++listed] = $0
    sub(/[ :].*/, "", crate[listed])
}

FILENAME ~ /[.](antt|rt)$/ {
    text[FILENAME, FNR] = $0
    lines[FILENAME] = FNR
}

FILENAME ~ /[.]antt$/ {
    if (/^[a-z]/) defines = defined($0)
    if (/^(unfoldable |abbrev )?pub /) definition[this, defines] = 1
    in_definition[FILENAME, FNR] = defines
}

# A function is a line with `fn`, its contract, and its body between lines of the same depth.
FILENAME ~ /[.]rt$/ {
    if (FILENAME ~ /src\/lib[.]rt$/) library[this] = 1
    if (/^ghost use Rattle/) take_names($0)
    if (/^impl/) {
        type = $0
        sub(/^impl(<[^>]*>)? /, "", type)
        sub(/[^A-Za-z0-9_].*/, "::", type)
    }
    if (/^}/) type = ""
    depth = match($0, /[^ ]/)
    if (/^ *(pub )?(extern "C" )?fn /) {
        owner[++functions] = this
        exported[functions] = /^ *pub /
        name[functions] = $0
        sub(/^.*fn /, "", name[functions])
        sub(/[^a-z0-9_].*/, "", name[functions])
        name[functions] = type name[functions]
        start = depth
        part = "head"
    }
    if (part == "body" && depth == start) part = ""
    if (/^ *(pub )?const /) {
        constant = $0
        sub(/^.*const /, "", constant)
        sub(/:.*/, "", constant)
    }
    if (constant != "") in_constant[FILENAME, FNR] = constant
    if (/;$/) constant = ""
    if (part == "head" && /^ *(requires|ensures)[*]? /) part = "contract"
    if (part == "head") head[functions] = head[functions] $0 "\n"
    if (part == "body") {
        body[functions] = body[functions] $0 "\n"
        in_body[FILENAME, FNR] = functions
    } else if (part != "" && depth == start && /[{]$/) part = "body"
    else if (part == "contract") contract[functions] = contract[functions] $0 "\n"
}

FILENAME ~ /[.]edit$/ {
    if (FNR == 1) {
        edit[++edits] = FILENAME
        sub(/^crates\//, "", edit[edits])
        sub(/must-fail\//, "", edit[edits])
        sub(/[.]edit$/, "", edit[edits])
    }
    if (/^file: /) path = "crates/" this "/" substr($0, 7)
    if (/^old: /) for (i = 1; i <= lines[path]; i++)
        if (index(text[path, i], substr($0, 6))) place[edits, ++places] = path SUBSEP i
}
