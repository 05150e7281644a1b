# Compares the contracts of the public functions with the forms that docs/PROMISES.md assigns to them. Reads, in this order:
#   docs/PROMISES.md          its table of forms: a form, the theorems that settle it, and the functions whose contract has it
#   promises/proofs/Settled   the theorems
#   `struct` lines            CRATE TYPE FIELD.., the fields of each struct of the library
#   `lent` lines              NAME FIELD.., the fields whose columns a definition of specs/Lent.antt reads
#   `fn` lines                CRATE NAME, and the function's head on one line, from its name to its contract
# A contract must be one `ensures` or several with names, each an equation or a product of equations, with a definition over the entry alone on each right side. Its
# form has `…` for each right side, `given` for what was given, `@` for each lent column or struct of lent columns at exit, and ` × ` between equations, of one clause or of several. Of a struct
# that is lent to be written each field must be told; and beside the equations a clause `Same.. x.old x.new` says that it holds the caller's columns still.

function fault(message) { print "tests/settled: " message; faults++ }

function strip(s) { gsub(/^ +| +$/, "", s); return s }

# ---- the table of forms
FILENAME ~ /PROMISES/ && /^## / { table = 0 }
FILENAME ~ /PROMISES/ && /^\| Form/ { table = 1; next }
FILENAME ~ /PROMISES/ && table && /^\| `/ {
    split($0, cell, /\|/)
    form = strip(cell[2])
    gsub(/^`|`$/, "", form)
    count = split(cell[3], word, /[`, ]+/)
    for (i = 1; i <= count; i++) if (word[i] != "") cited[word[i]] = form
    count = split(cell[4], group, /;/)
    for (i = 1; i <= count; i++) {
        crate = strip(group[i])
        sub(/:.*/, "", crate)
        list = group[i]
        sub(/^[^:]*:/, "", list)
        n = split(list, word, /[`, ]+/)
        for (j = 1; j <= n; j++) if (word[j] != "") {
            if ((crate, word[j]) in assigned) fault(crate "::" word[j] " has two forms in docs/PROMISES.md")
            assigned[crate, word[j]] = form
            open[crate "::" word[j]] = 1
        }
    }
    forms++
}
FILENAME ~ /PROMISES/ { next }

# ---- the theorems
FILENAME ~ /Settled/ { if ($1 == "pub") proved[$2] = 1; next }

# ---- the sources
$1 == "struct" { for (i = 4; i <= NF; i++) { fields[$2, $3] = fields[$2, $3] " " $i; of_type[$3] = of_type[$3] " " $i }; next }

$1 == "lent" { for (i = 3; i <= NF; i++) told_by[$2] = told_by[$2] " " $i; next }

$1 == "fn" {
    crate = $2
    name = $3
    head = $0
    sub(/^fn [^ ]* [^ ]* /, "", head)
    functions++
    if (!((crate, name) in assigned)) { fault(crate "::" name ": docs/PROMISES.md assigns no form to it"); next }
    delete open[crate "::" name]
    said = form_of(head, name)
    if (problem != "") fault(crate "::" name ": " problem)
    else if (said != assigned[crate, name]) fault(crate "::" name ": its contract has the form `" said "`, not `" assigned[crate, name] "`")
}

# The place where the bracket that opens at i closes.
function closing(s, i, opens, closes,    depth, c) {
    for (depth = 0; i <= length(s); i++) {
        c = substr(s, i, 1)
        if (c == opens) depth++
        if (c == closes && --depth == 0) return i
    }
    return 0
}

# Splits at a mark outside all brackets.
function split_at(s, mark, parts,    i, n, depth, c, from) {
    n = 0
    from = 1
    for (i = 1; i <= length(s); i++) {
        c = substr(s, i, 1)
        if (c == "(" || c == "{") depth++
        if (c == ")" || c == "}") depth--
        if (depth == 0 && substr(s, i, length(mark)) == mark) { parts[++n] = substr(s, from, i - from); from = i + length(mark); i = from - 1 }
    }
    parts[++n] = substr(s, from)
    return n
}

# The left side of an equation, with @ for each lent column or struct at exit; what it names is kept.
function left_form(s,    out, name, before, path, field, n, i) {
    out = ""
    while (match(s, /[A-Za-z0-9_]+\.new(\.[A-Za-z0-9_.]+)?/)) {
        name = path = substr(s, RSTART, RLENGTH)
        sub(/\.new.*/, "", name)
        sub(/^[^.]*\.new/, "", path)
        before = substr(s, 1, RSTART - 1)
        s = substr(s, RSTART + RLENGTH)
        out = out before "@" path
        if (name in struct_of) {
            # a definition of Lent.antt tells the fields that it reads; of a field that is a struct itself it must tell all
            before = out
            sub(/@[^@]*$/, "", before)
            sub(/^.*\(/, "", before)
            sub(/ .*/, "", before)
            n = 0
            if (path != "") { n = 1; field[1] = path; sub(/^\./, "", field[1]) }
            else if (before in told_by) n = split(substr(told_by[before], 2), field, / /)
            else problem = "its contract has " name " at exit, and no definition of Lent.antt before it"
            if (path != "" && before in told_by && !(told_by[before] in a_struct)) problem = before " does not tell all of a struct"
            for (i = 1; i <= n; i++) {
                if ((name, field[i]) in left_field) problem = "its contract has " name "." field[i] " at exit twice"
                left_field[name, field[i]] = 1
            }
            left_at[name] = 1
            continue
        }
        if (name in left_at) problem = "its contract has " name " at exit twice"
        left_at[name] = 1
        # of a field alone there is no column
        if (path != "") problem = "its contract has a part of " name " at exit"
    }
    return out s
}

# A clause that says that a struct, or each of several, holds the caller's columns still.
function says_same(s,    part, n, i, k, word, field) {
    n = split_at(s, " × ", part)
    for (i = 1; i <= n; i++) {
        if (split(part[i], word, / /) != 3 || word[1] !~ /^Same[A-Za-z]+$/ || word[2] !~ /^[a-z_]+\.old$/ || word[3] !~ /^[a-z_]+\.new$/) return 0
        sub(/\.old$/, "", word[2])
        sub(/\.new$/, "", word[3])
        if (word[2] != word[3] || !(word[2] in struct_of)) return 0
        same[word[2]] = 1
        k = split(substr(told_by[word[1]], 2), field, / /)
        for (; k > 0; k--) left_field[word[2], field[k]] = 1
    }
    return 1
}

# The clauses of a head's rest, each without its name and its braces; none if they are no plain `ensures` alone, named where there are two.
function clauses_of(rest, body,    n, names, word, i) {
    n = names = 0
    while (rest != "") {
        if (!match(rest, /^ ensures( [a-z0-9_]+)? \{ /)) return 0
        word = substr(rest, 1, RLENGTH)
        if (word ~ /^ ensures [a-z0-9_]/) names++
        i = closing(rest, RLENGTH - 1, "{", "}")
        if (!i || substr(rest, i - 1, 1) != " ") return 0
        body[++n] = substr(rest, RLENGTH + 1, i - RLENGTH - 2)
        rest = substr(rest, i + 1)
    }
    return n > 1 && names < n ? 0 : n
}

function form_of(head, name,    i, k, lent, list, n, param, type, returns, bodies, body, parts, sides, whole, said, used, field, wanted, count) {
    problem = ""
    delete left_at
    delete left_field
    delete lent
    delete struct_of
    delete same
    for (i in of_type) a_struct[of_type[i]] = 1
    gsub(/«|»/, "", head)
    i = index(head, "(")
    list = substr(head, i + 1, closing(head, i, "(", ")") - i - 1)
    head = substr(head, closing(head, i, "(", ")") + 1)
    n = split(list, param, /, */)
    for (i = 1; i <= n; i++) {
        type = ""
        if (param[i] ~ /^ *&('[a-z]+ )?mut self$/) { type = name; sub(/::.*/, "", type); param[i] = "self: " }
        else if (param[i] ~ /: &('[a-z]+ )?mut /) { type = param[i]; sub(/^.*: &('[a-z]+ )?mut /, "", type); sub(/<.*/, "", type) }
        if (type == "") continue
        sub(/:.*/, "", param[i])
        param[i] = strip(param[i])
        lent[param[i]] = 1
        if (type in of_type) struct_of[param[i]] = type
    }
    returns = ""
    if (match(head, /^ -> /)) {
        i = match(head, / (requires|ensures)[ *]/)
        returns = substr(head, 5, i - 5)
        head = substr(head, i)
    }
    count = clauses_of(head, bodies)
    if (count == 0) {
        problem = "its contract is not one `ensures { .. }`, nor several with names:" head
        return ""
    }
    equations = 0
    for (k = 1; k <= count; k++) if (!says_same(bodies[k])) equations++
    said = ""
    used = " "
    for (k = 1; k <= count; k++) {
        if (says_same(bodies[k])) continue
        n = split_at(bodies[k], " × ", parts)
        for (i = 1; i <= n; i++) {
            whole = substr(parts[i], 1, 1) == "(" && closing(parts[i], 1, "(", ")") == length(parts[i])
            if (whole) parts[i] = substr(parts[i], 2, length(parts[i]) - 2)
            if (split_at(parts[i], " ≡ ", sides) != 2) { problem = "a part of its contract is no equation: " parts[i]; return "" }
            if ((sides[1] sides[2]) ~ /≡|×|→|⊎|↔|λ/ || (" " sides[1] " " sides[2] " ") ~ /[ (](let|if|match) /) problem = "an equation of its contract has more than terms: " parts[i]
            if (sides[2] ~ /\.new/) problem = "the right side of its contract reads what the call leaves: " sides[2]
            if ((" " sides[2] " ") ~ /[ (]result[ ).]/) problem = "the right side of its contract names the result: " sides[2]
            # what a reference in a struct refers to
            while (match(sides[1], /\.new\.[a-z_]+\.now/)) sides[1] = substr(sides[1], 1, RSTART + RLENGTH - 5) substr(sides[1], RSTART + RLENGTH)
            # one form needs something that was given, the state that a refusal keeps: the theorem that settles it is for any
            if (sides[1] ~ /\.(old|now)/ && sides[1] != "edited_or self.now.st result") problem = "the left side of its contract reads what was given: " sides[1]
            gsub(/[a-z_]+\.(old|now)(\.[a-z_]+)*/, "given", sides[1])
            used = used sides[1] " "
            sides[1] = left_form(sides[1]) " ≡ …"
            if (equations > 1 || n > 1) sides[1] = "(" sides[1] ")"
            said = said (said == "" ? "" : " × ") sides[1]
        }
    }
    for (i in lent) if (!(i in left_at)) problem = "its contract does not say what " i " holds at exit"
    for (i in struct_of) {
        n = split(of_type[struct_of[i]], field, / /)
        for (k = 1; k <= n; k++) if (field[k] != "" && !((i, field[k]) in left_field)) problem = "its contract does not say what " i "." field[k] " holds at exit"
        if (!(i in same)) problem = "its contract does not say that " i " holds the caller's columns still"
    }
    for (i in left_at) if (!(i in lent)) problem = "its contract has " i " at exit, which is not lent to write"
    # the result, whole or field by field
    whole = used
    gsub(/result\.[a-z0-9_]+/, "", whole)
    if (returns == "" && (" " used) ~ /[ (]result[ ).]/) problem = "its contract names a result, and it gives none"
    if (returns != "" && whole !~ /[ (]result[ )]/) {
        wanted = fields[crate, returns]
        n = split(wanted, field, / /)
        for (i = 1; i <= n; i++) if (field[i] != "" && used !~ ("[ (]result\\." field[i] "[ )]")) problem = "its contract says nothing of the result's " field[i]
        if (wanted == "") problem = "its contract says nothing of its result"
    }
    return said
}

END {
    for (i in cited) if (!(i in proved)) fault("docs/PROMISES.md cites " i ", and promises/proofs/Settled.antt has no such theorem")
    for (i in open) fault("docs/PROMISES.md assigns a form to " i ", which is no public function")
    if (forms == 0) fault("docs/PROMISES.md has no table of forms")
    if (faults) exit 1
    print "tests/settled: " functions " public functions, each with a contract of the form that docs/PROMISES.md assigns to it (" forms " forms)"
}
