# Reads the lines of slips.awk for some slips of one sheet on standard input, and the log of a check of their functions with just these slips. Says of each slip
# where it is refused, or what is wrong, with status 1: it has to be refused at a fact, in the proof of its own function, and in the proof of no other may
# a fact fail. Where several were checked and one shows no fact, it is named as `alone: SLIP`: a search is not tried in a function while one that it calls is
# not proved. Set with -v: log_file.
function wrong(m) { print "edits: " crate "/" sheet ": " m; bad = 1 }

# The file and place in the crate of a message `PATH:LINE:COLUMN: ..`.
function place(s) { sub(/: .*/, "", s); sub(/^\.\//, "", s); return s }

# The slip whose function a file of proofs/ is of.
function own(file,    i, f) {
    for (i = 1; i <= n; i++) {
        f = fn[i]; sub(/^[^:]*::/, "", f); gsub(/::/, "/", f)
        if (file ~ "^proofs/" f "/(Answers|Invariants|Proof)\\.antt$") return i
    }
    return 0
}

# Whether an error says only that a proof file names what the slip took away: a goal, a step, a variable, or the place of another step.
function unfitting(e) { return e ~ /has no field|is not in scope|has no `|expected type `Rattle\.[^` ]*\.Lts\.[A-Z]/ }

# Whether it follows from an error above.
function following(e) { return e ~ /: error: `[^`]*`: `[^`]*` was not admitted|: error: .*declarations? that depends? on `[^`]*`, which was rejected/ }

function fails(i, where, numbers) {
    if (at[i] == "") at[i] = where
    if (numbers) in_numbers[i] = 1
}

# An error that antt told: its first line and those that belong to it.
function told(    where, file, i) {
    if (error == "") return
    where = place(error); file = where; sub(/:.*/, "", file); i = own(file)
    if (following(first_line)) ;
    else if (unfitting(first_line)) { if (i) unfit[i] = where; else wrong("at " where " a proof file names what the code no longer has") }
    else if (i) fails(i, where, index(error, "All of that holds, and the goal fails"))
    else wrong("a fact fails at " where ", in no function of this sheet")
    error = ""
}

# A goal that no answer proves, and no search.
function searched(line,    where, w, i, hit) {
    sub(/^note: /, "", line)
    where = place(line); split(where, w, ":")
    for (i = 1; i <= n; i++)
        if (w[1] == src[i] && first[i] <= w[2] + 0 && w[2] + 0 <= last[i]) {
            hit = 1
            if (index(line, "allow values at which this goal is false")) fails(i, where, 1)
            else if (found[i] == "") found[i] = where
        }
    if (!hit) wrong("a fact fails at " where ", in no function of this sheet")
}

{ crate = $1; sheet = $2; n++; slip[n] = $3; fn[n] = $5; src[n] = $6; first[n] = $7; last[n] = $8 }
END {
    while ((getline line < log_file) > 0) {
        if (line ~ /^[^ ]*:[0-9]+:[0-9]+: error: /) { told(); error = first_line = line; continue }
        if (error != "" && line ~ /^ /) { error = error line; continue }
        told()
        if (line ~ /^note: [^ ]*:[0-9]+:[0-9]+: it is not proved that /) searched(line)
        if (line ~ /^fn [^ ]*: /) { split(line, w, ": "); proved[substr(w[1], 4)] = w[2] }
        if (line ~ /^only=[0-9]+ proved=/) { split(line, w, /[ =]/); refused = w[4] < w[2] }
    }
    told()
    if (!refused) wrong("there is no log of a refusal")
    for (i = 1; i <= n; i++) {
        # what a search no longer finds says something only of a goal that it was asked for before
        if (at[i] == "" && unfit[i] == "") at[i] = found[i]
        if (n > 1 && at[i] == "") print "alone: " slip[i]
        else if (proved[fn[i]] !~ /^(not proved|no proof)/) wrong(slip[i] ": " fn[i] " is " (fn[i] in proved ? proved[fn[i]] : "not in the log"))
        else if (at[i] != "") print "edits: " crate "/" slip[i] ": refused at " at[i] (in_numbers[i] ? ", by a counterexample in numbers" : "")
        else wrong(slip[i] ": no fact fails in the proof of " fn[i] (unfit[i] == "" ? "" : ", which only names what the code no longer has, at " unfit[i]))
    }
    exit bad
}
