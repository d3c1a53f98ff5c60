# Reads what the prover said of an edited crate; command/refusals says what is printed.

# ---- reading

BEGIN { folder = ENVIRON["EDITED"] "/" }

{ while (at = index($0, folder)) $0 = substr($0, 1, at - 1) substr($0, at + length(folder)) }
{ gsub(/\.\/proofs\//, "proofs/"); gsub(/\.\/specs\//, "specs/"); gsub(/\.\/src\//, "src/") }

/^[^ ]+:[0-9]+:[0-9]+: error/ {
    begin($1)
    code[count] = $2
    words[count] = from($0, ": error[^ ]* ")
    take_law()
    next
}
# A function that is proved by search alone has a note for each fact that is left, then its line with the file that would answer these facts,
# and then a note of each that numbers break. In the same way an answer that is for another goal is told of.
/^note: [^ ]+:[0-9]+:[0-9]+: it is not proved that / {
    begin($2)
    by_search[count] = 1
    words[count] = from($0, ":[0-9]+: ")
    next
}
/^note: what antt said of .*: error: / {
    match($0, /[^ ]+:[0-9]+:[0-9]+: error: /)
    begin(substr($0, RSTART, RLENGTH))
    by_answer[count] = 1
    code[count] = "error:"
    words[count] = substr($0, RSTART + RLENGTH)
    take_law()
    next
}
/^fn .*: no proof: expected answers in / {
    split($0, part, / answers in |; /)
    for (i = count; (by_search[i] || by_answer[i]) && !owner[i]; i--) {
        owner[i] = $2
        answers[i] = part[2]
    }
}
/^note: `[^`]*` of [^ ]* may be false: the known facts allow / {
    values = from($0, " the known facts allow ")
    sub(/: help: .*/, "", values)
    for (i = 1; i <= count; i++) {
        if (answers[i] == $4 && index(words[i], "(" $2 ")")) words[i] = words[i] "\nthe goal fails, at " values
    }
}
/^[^ ]+:[0-9]+:[0-9]+: note: .* trial runs? of this declaration was admitted / {
    split($1, part, ":")
    terms = split($0, term, "`")
    admitted[part[1], term[terms - 1]] = term[2]
}
/^  / && reading {
    # A line goes on with the sentence before it, unless it begins one.
    sub(/^  /, "")
    words[count] = words[count] (/^(expected type|computed as|as printed|what the two|here `|the `|`[^`]*` (\(of `[^`]*`\) )?(does|has|with|computes) )/ ? "\n" : " ") $0
    next
}
{ reading = 0 }

# begin(PLACE): the next error, at FILE:LINE:COLUMN:
function begin(place,    part) {
    count++
    split(place, part, ":")
    file[count] = part[1]
    line[count] = part[2]
    reading = 1
}

# Takes the law that an error is in, or the goal, from before its words.
function take_law() {
    if (match(words[count], /^`[^`]+`: /)) {
        law[count] = substr(words[count], 2, RLENGTH - 4)
        words[count] = substr(words[count], RLENGTH + 1)
    }
}

# What stands behind the first match of a pattern.
function from(text, pattern) { return match(text, pattern) ? substr(text, RSTART + RLENGTH) : text }

# ---- kinds

# A text that consists of numbers, truth values and lists of them alone.
function literal(text) {
    gsub(/[0-9]+|true|false|\[\]|∷|ℕ|Bool|List|Path|◌≤◌|◌<◌|[ ()]/, "", text)
    return text == ""
}

# Both sides of an equation are the same text.
function same_sides(text,    half) {
    half = (length(text) - length(" ≡ ")) / 2
    return half > 0 && text == substr(text, 1, half) " ≡ " substr(text, 1, half)
}

# Two equations of one term with different numbers.
function contrary(one, other) {
    return one ~ /^Path / && sub(/[0-9]+$/, "", one) && sub(/[0-9]+$/, "", other) && one == other
}

# The kind of an error that has two types that are not the same. What refl shows has the same text on both sides.
function kind_of_types(text,    units, unit, term, terms, i, refl) {
    # A goal in the place of another.
    if (text ~ /expected type `[^` ]*(Goals\.|Need-)[^` ]*`, but this has type `[^` ]*(Goals\.|Need-)/) return "form"
    text = plain(text, length(text))
    refl = match(text, /but this has type `[^`]*`/) && same_sides(substr(text, RSTART + 19, RLENGTH - 20))
    units = split(text, unit, "\n")
    for (i = 1; i <= units; i++) {
        if (unit[i] !~ /^computed as far as they go, the two types/) continue
        terms = split(unit[i], term, "`")
        if (unit[i] ~ /differ/ && refl && literal(term[2]) && literal(term[terms - 1])) return "fact"
        if (unit[i] ~ /two types are/ && (term[2] ~ /^(Path|◌≤◌|◌<◌) / && literal(term[2]) || contrary(term[2], term[terms - 1]))) return "fact"
    }
    return refl && text !~ /not unfold here/ ? "fact" : "look"
}

# The kind of error i by its words.
function kind_of(i,    text) {
    text = words[i]
    if (by_search[i]) return "fact"
    if (code[i] != "error:") return code[i] ~ /unknown/ ? "name" : "form"
    if (text ~ /^`[^`]*` is not in scope| has no field | that can be named from here/) return "name"
    # A definition or a contract claims nothing, and what stands in no declaration was not read.
    if (file[i] ~ /^(src|specs)\// && !by_answer[i] || !law[i] || text ~ /^(`rw`: no occurrence|this clause follows)/) return "form"
    if (text ~ /^`search`: no proof of / || text ~ /^`(omega|search|cc|grind)`: .* does not follow/) return "fact"
    if (text ~ /the two types|expected type/) return kind_of_types(text)
    # What a rewriting leaves, or anything else that is not known here.
    return match(text, /ends are equal, and `[^`]*`/) && literal(substr(text, RSTART + 21, RLENGTH - 22)) ? "fact" : "look"
}

# ---- printing

# At most so many bytes of a text, with .. where it is cut, and no part of a character.
function cut(text, most) {
    if (length(text) <= most) return text
    text = substr(text, 1, most)
    sub(/[\300-\377]?[\200-\277]*$/, "", text)
    return text ".."
}

# A term, cut and without the modules before its names. The stop of a lambda in it ends no sentence: a \001 stands behind it.
function short(term, most) {
    if (term ~ /use /) return term
    gsub(/\. /, "\001 ", term)
    gsub(/([^ ().{},\001]+\.)+/, "", term)
    gsub(/\001 /, ".\001", term)
    # What a function was called with.
    gsub(/\(dens [A-Za-z0-9_ -]*args\)/, "args", term)
    return cut(term, most)
}

# A text with its terms short.
function plain(text, most,    pieces, piece, i, out) {
    pieces = split(text, piece, "`")
    for (i = 1; i <= pieces; i++) out = out (i > 1 ? "`" : "") (i % 2 ? piece[i] : short(piece[i], most))
    return out
}

# A sentence says what is refused. Numbers that may not break the goal say nothing.
function telling(sentence) {
    if (sentence ~ /may not break the goal/) return 0
    return sentence ~ /does not follow from|fails,? at|no proof was found of|it leaves must be/ \
        || sentence ~ /two types (differ|first differ|are)|expected type|the (expected|found) one (is|begins)/
}

# The first sentence of an error, and those that say what is refused, with tabs between. Advice on a rewriting, and how two types differ as
# printed where that is told as they are computed, do not count as the first.
function told(text,    units, unit, sentences, sentence, i, j, out) {
    sub(/^give a proof of that[^\n]*\n/, "", text)
    if (text ~ /\ncomputed as far as they go, the two types/) sub(/^as printed[^\n]*\n/, "", text)
    gsub(/\. All of that holds, and/, ": all of that holds, and", text)
    units = split(text, unit, "\n")
    for (i = 1; i <= units; i++) {
        # Two types are there to be read, and of a goal it is enough to know which it is.
        sentences = split(plain(unit[i], unit[i] ~ / types? / ? 160 : 70), sentence, /\. /)
        for (j = 1; j <= sentences; j++) {
            if (out != "" && !telling(sentence[j])) continue
            sub(/^In its own words: /, "", sentence[j])
            gsub(/\001/, " ", sentence[j])
            out = out (out == "" ? "" : "\t") cut(sentence[j], 600)
        }
    }
    return out
}

# A file has the proof of a function.
function of_function(file) { return file ~ /^proofs\/.*\/(Proof|Answers|Invariants)\.antt$/ }

# The law that an error is in, or the function that is not proved.
function who(i,    name) {
    name = by_search[i] || by_answer[i] ? owner[i] : file[i]
    if (name == file[i] && !of_function(name)) return law[i] ? law[i] : "-"
    gsub(/^[^:\/]*::|:$|^proofs\/|\/[A-Za-z]*\.antt$|\+/, "", name)
    gsub(/\//, "::", name)
    return "fn " name
}

# Why a goal that the proof of a function leaves may hold for all that.
function doubt(i) {
    if (!of_function(file[i])) return ""
    if (moved && law[i] ~ /_spec$/) return "the edit changes the operations, so that the proof's list of facts may be unfit for them"
    if (code_edited && words[i] ~ /^`omega`/) return "the facts that the proof hands to `omega` may be about what the edit took away"
    return ""
}

END {
    for (i = 1; i <= count; i++) {
        if (words[i] ~ /^([0-9]+ declarations? that depends? on |`[^`]*` is not admitted: rejected)/) continue
        kind = kind_of(i)
        note = kind == "fact" ? doubt(i) : ""
        if (note != "") kind = "look"
        if ((file[i], law[i]) in admitted) {
            kind = "form"
            note = "it is admitted where its proof has the line `" admitted[file[i], law[i]] "`"
        }
        print kind "\t" who(i) "\t" file[i] ":" line[i] "\t" note (note == "" ? "" : "\t") told(words[i])
    }
}
