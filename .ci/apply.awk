# Applies one sheet, or only its slips that -v slips names between blanks, to the copy of a crate in the current folder. As `rt` has it, each `old:` text stands
# in its file once, after what the pairs before it made.
function read_file(f,    line) {
    if (f in text) return
    while ((getline line < f) > 0) text[f] = text[f] line "\n"
    close(f)
}
/^slip: / { wanted = slips == "" || index(" " slips " ", " " substr($0, 7) " ") }
/^file: / { file = substr($0, 7) }
/^old: / { old = substr($0, 6) }
/^new:/ && wanted {
    new = substr($0, 5); sub(/^ /, "", new)
    read_file(file)
    at = index(text[file], old)
    if (!at || index(substr(text[file], at + 1), old)) { print "edits: `" old "` does not stand once in " file; bad = 1; exit }
    text[file] = substr(text[file], 1, at - 1) new substr(text[file], at + length(old))
}
END {
    for (file in text) if (!bad) printf "%s", text[file] > file
    exit bad
}
