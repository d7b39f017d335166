# Reads one sheet, crates/CRATE/must-fail/SHEET.edit, beside the crate's source as it stands. Prints a line for each slip:
#     CRATE SHEET SLIP KIND FUNCTION FILE FIRST LAST
# KIND is `body`, `contract`, `item`, `spec`, or `several` where its replacements are not of one kind in one function; FIRST and LAST are the function's
# lines. What is wrong with the sheet's form goes to standard error. Set with -v: crate, sheet.
function wrong(m) { print "edits: " crate "/" sheet ": " m > "/dev/stderr" }

# The lines of a file of the crate, and for each line of src/ the function that it belongs to.
function load(f,    line, n) {
    if (f in lines) return
    while ((getline line < ("crates/" crate "/" f)) > 0) text[f, ++n] = line
    close("crates/" crate "/" f)
    lines[f] = n
    if (f ~ /^src\//) outline(f, n)
}

function indent_of(s) { return match(s, /[^ ]/) - 1 }

# The words of a type, joined, each with a capital: `Result<usize, Refusal>` is ResultUsizeRefusal, `&u8` is RefU8.
function words(s,    n, i, w, part) {
    gsub(/[a-z_0-9]+::/, "", s); gsub(/&/, " ref ", s); gsub(/'[a-z_]+/, "", s)
    n = split(s, part, /[^A-Za-z0-9]+/)
    for (i = 1; i <= n; i++) w = w toupper(substr(part[i], 1, 1)) substr(part[i], 2)
    return w
}

# What the check calls an `impl`: a type's own by the type's name; a trait's by the words of the type, the trait's name and the words of its arguments.
function impl_of(s,    of_trait, at) {
    sub(/^impl(<[^>]*>)? /, "", s); sub(/ \{.*/, "", s)
    at = index(s, " for ")
    if (!at) { sub(/<.*/, "", s); return s }
    of_trait = substr(s, 1, at - 1)
    return words(substr(s, at + 5)) words(of_trait)
}

# As `rt fmt` lays a file out: a function starts at `fn`, its body at a line that ends in `{`, and it ends at a `}`, all with one indent.
function outline(f, n,    i, s, module, impl, name, indent, begun, in_body) {
    module = f; sub(/^src\//, "", module); sub(/\.rt$/, "", module); gsub(/\//, "::", module)
    module = module == "lib" || module == "main" ? "" : module "::"
    for (i = 1; i <= n; i++) {
        s = text[f, i]
        if (name == "") {
            if (s ~ /^impl[ <]/) impl = impl_of(s) "::"
            if (s ~ /^}/) impl = ""
            if (s !~ /^ *(pub(\([a-z]+\))? )?(extern "C" )?fn [a-z0-9_]+/) continue
            name = s; sub(/^.*fn /, "", name); sub(/[^a-z0-9_].*/, "", name)
            indent = indent_of(s); begun = i; in_body = 0
        }
        owner[f, i] = crate "::" module impl name
        part[f, i] = in_body ? "body" : "contract"
        if (!in_body) in_body = s ~ /\{$/ && indent_of(s) == indent && (i == begun || s ~ /^ *(\{|\) ?(-> .*)?\{)$/)
        else if (s ~ /^ *}$/ && indent_of(s) == indent) {
            while (text[f, begun - 1] ~ /^ *#\[/) begun-- # a function's lines count from its attributes on
            first[owner[f, i]] = begun; last[owner[f, i]] = i; name = ""
        }
    }
}

function replacement(    i, at, k, o) {
    if (slip == "") { wrong("a replacement before the first `slip:`"); return }
    if (file !~ /^(src|specs)\//) { wrong(slip ": a slip is of src/ or specs/, not of " file); return }
    load(file)
    for (i = 1; i <= lines[file]; i++) if (index(text[file, i], old)) at = i
    if (!at) { wrong(slip ": its `old:` is on no line of " file); return }
    k = file ~ /^specs\// ? "spec" : (file, at) in owner ? part[file, at] : "item"
    o = (file, at) in owner ? owner[file, at] : "-"
    if (!pairs++) { kind = k; fn = o; src = file }
    else if (kind != k || fn != o) { kind = "several"; fn = "-" }
}

function ended() {
    if (slip == "") return
    count++
    if (whys != 1) wrong(slip ": it has " whys + 0 " `why:` lines, against one")
    if (!pairs) { wrong(slip ": it replaces nothing"); return }
    if (kind != "body" || named) alone = alone " " slip
    if (kind == "body" && fn in taken) wrong(slip ": " taken[fn] " is a slip of " fn " too")
    taken[fn] = slip
    print crate, sheet, slip, kind, fn, src, fn in first ? first[fn] : 0, fn in last ? last[fn] : 0
}

/^slip:/ {
    ended()
    slip = substr($0, 7); kind = fn = ""; pairs = whys = named = 0
    if (slip !~ /^[a-z0-9_]+$/) wrong("`" $0 "` names no slip")
}
/^why: ./ { whys++ }
/^named: ./ { named = 1 }
/^file: / { file = substr($0, 7) }
/^old: / { old = substr($0, 6) }
/^new:/ { replacement() }
END {
    ended()
    if (!count) wrong("it names no slip")
    if (count > 1 && alone != "") wrong("to stand alone in its sheet:" alone)
    if (count == 1 && slip != sheet) wrong("its only slip is " slip)
}
