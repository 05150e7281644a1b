# Reads the list of a crate's wrong answers (README.md has the format) and, by the variable mode,
#   test   says what is wrong with the list: a text that its function does not have, or has more than once, or a line that is missing
#   apply  puts the wrong answers `which` (first or second) into the crate's copy at `dir`, and prints each changed function as the prover names it
#   bare   the same, and takes the `ensures` of each changed function away; with the variable `only`, in those functions alone (as the prover names them)
#   names  prints the functions listed
#   table  prints the table of docs/WRONG-ANSWERS.md
# Variables: mode, crate, dir (the crate's folder), which, only. A text is looked for in the function's body alone, by lines without their indentation.

function fault(n, message) {
    print "tests/wrong/" crate ": " name[n] ": " message
    faults = 1
}

function keep(key, line) {
    text[count, part, key] = text[count, part, key] (text[count, part, key] == "" ? "" : "\n") line
}

/^#/ || /^$/ { next }
/^fn: / { name[++count] = substr($0, 5); part = ""; next }
/^file: / { file[count] = substr($0, 7); next }
/^contract: / { contract[count] = substr($0, 11); next }
/^(first|second): / {
    part = $1
    sub(/:$/, "", part)
    words[count, part] = substr($0, length($1) + 2)
    next
}
/^old: / { keep("old", substr($0, 6)); next }
/^new: / { keep("new", substr($0, 6)); next }
{ fault(count, "a line that says nothing: " $0) }

# The type of a line `impl Type {` or `impl<P> Type<P> {`; of an impl of a trait no type has the name.
function type_of(s) {
    sub(/^impl(<[^ ]*>)? /, "", s)
    sub(/ \{$/, "", s)
    if (s !~ / for /) sub(/<.*/, "", s)
    return s
}

# Where the head of entry n is among the lines of its file, and where its body begins and ends: between { and } at the function's own indentation.
function find_body(n,    own, type, in_type, indent, i, found) {
    own = name[n]
    type = ""
    if (i = index(own, "::")) { type = substr(own, 1, i - 1); own = substr(own, i + 2) }
    begins = ends = 0
    for (i = 1; i <= height; i++) {
        if (line[i] ~ /^impl/) in_type = type_of(line[i])
        if (line[i] == "}") in_type = ""
        if (in_type != type) continue
        if (!found && line[i] ~ ("^ *pub (extern \"C\" )?fn " own "[(<]")) { found = heads = i; indent = line[i]; sub(/[^ ].*/, "", indent) }
        if (found && !begins && line[i] == indent "{") begins = i
        if (begins && line[i] == indent "}") { ends = i; return 1 }
    }
    return 0
}

# The contract of the function has the definitions that entry n names: its first word, and each that ends in _of.
function test_contract(n,    i, word, head, parts) {
    load(dir "/" file[n])
    if (!find_body(n)) return
    head = ""
    for (i = begins - 1; i > 0 && line[i] ~ /^ *(requires|ensures) /; i--) head = head line[i]
    if (head !~ /ensures .*\}$/) fault(n, "it has no `ensures` on a line of its own")
    parts = split(contract[n], word, /[^A-Za-z0-9_]+/)
    for (i = 1; i <= parts; i++)
        if ((i == 1 || word[i] ~ /_of$/) && !index(head, word[i])) fault(n, "its contract does not name " word[i])
}

function load(path,    s) {
    height = 0
    while ((getline s < path) > 0) line[++height] = s
    close(path)
    return height
}

# The file of entry n with the wrong answer p in it is left in `edited`.
function edit(n, p, path,    i, s, body, at, old, rest) {
    if (!load(path)) { fault(n, "no file " file[n]); return 0 }
    if (!find_body(n)) { fault(n, "no such public function in " file[n]); return 0 }
    old = text[n, p, "old"]
    body = ""
    for (i = begins + 1; i < ends; i++) { s = line[i]; sub(/^ +/, "", s); body = body s "\n" }
    at = index(body, old)
    rest = substr(body, at + length(old))
    if (old == "" || !at || index(rest, old)) { fault(n, "the old text of '" p "' does not occur in it exactly once"); return 0 }
    edited = ""
    for (i = 1; i <= begins; i++) if (!(mode == "bare" && i >= heads && line[i] ~ /^ *ensures /)) edited = edited line[i] "\n"
    body = "\n" substr(body, 1, at - 1) text[n, p, "new"] substr(rest, 1, length(rest) - 1)
    gsub(/\n/, "\n        ", body)
    edited = edited substr(body, 2) "\n"
    for (i = ends; i <= height; i++) edited = edited line[i] "\n"
    return 1
}

# The file that declares a type: a method is named by it, wherever its `impl` stands.
function home(type, otherwise,    command, path) {
    command = "cd " dir " && grep -rlE '^pub (struct|enum) " type "([ <({;]|$)' src"
    if ((command | getline path) <= 0) path = otherwise
    close(command)
    return path
}

# The name that the prover gives to entry n.
function full_name(n,    module, i) {
    i = index(name[n], "::")
    module = i ? home(substr(name[n], 1, i - 1), file[n]) : file[n]
    sub(/^src\//, "", module)
    sub(/\.rt$/, "", module)
    gsub(/\//, "::", module)
    return crate "::" (module == "lib" ? "" : module "::") name[n]
}

function same(n, p, q, key) { return text[n, p, key] == text[n, q, key] }

function test(n) {
    if (file[n] == "") fault(n, "no line 'file:'")
    if (contract[n] == "") fault(n, "no line 'contract:'")
    if (words[n, "first"] == "" || words[n, "second"] == "") { fault(n, "it has not two wrong answers"); return }
    edit(n, "first", dir "/" file[n])
    edit(n, "second", dir "/" file[n])
    test_contract(n)
    if (text[n, "first", "new"] == text[n, "first", "old"] || text[n, "second", "new"] == text[n, "second", "old"]) fault(n, "a new text is the old one")
    if (same(n, "first", "second", "old") && same(n, "first", "second", "new")) fault(n, "its two wrong answers are the same")
}

END {
    for (n = 1; n <= count; n++) {
        if (mode == "test") test(n)
        if (mode == "names") print name[n]
        if (mode == "table") print "| `" name[n] "` | `" contract[n] "` | " words[n, "first"] " | " words[n, "second"] " |"
        path = dir "/" file[n]
        if ((mode == "apply" || mode == "bare" && (only == "" || index(" " only " ", " " full_name(n) " "))) && edit(n, which, path)) { printf "%s", edited > path; close(path); print full_name(n) }
    }
    exit faults
}
