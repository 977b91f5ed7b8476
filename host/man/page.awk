# Puts into a page what the header says: its prototypes, a section for each call and for each helper with the comment above its declaration, who
# owns what, what a call gives back, and the numbers. So nothing of these is written twice. Usage: awk -f page.awk pedralume.h pedralume.3

# roff takes a line that begins with a dot or a quote for a request, and a backslash for an escape.
function plain(text) { gsub(/\\/, "\\e", text); return text ~ /^[.']/ ? "\\&" text : text }
# A paragraph begins after an empty line of the comment, and at what the call takes, gives, refuses and leaves.
function sentence(line) { return (apart || line ~ /^It (takes|gives|refuses|leaves) / ? ".PP\n" : "") plain(line) "\n" }
function section(name, declaration, said) { return ".SS " name "\n.nf\n" declaration ".fi\n.PP\n" said }
function keep(    name) {
    name = declaration
    sub(/\(.*/, "", name)
    sub(/.*[ *]/, "", name)
    prototypes = prototypes declaration
    if (declaration ~ /^static/) helpers = helpers section(name, declaration, said)
    else calls = calls section(name, declaration, said)
    declaration = said = ""
}

FNR == NR && /^\/\*/ { said = ""; apart = 0; comment = 1 }
FNR == NR && comment {
    line = $0
    gsub(/^ ?\/?\*+ ?|^ \*$| *\*\/$/, "", line)
    if (line ~ /^[A-Z][A-Z ]+$/) { chapter = line; apart = 0 } else {
        if (line != "") { said = said sentence(line); chapters[chapter] = chapters[chapter] sentence(line) }
        apart = line == "" && chapters[chapter] != "" && said != ""
    }
    if (/\*\//) { comment = 0; chapter = "" }
    next
}
FNR == NR && /^enum/ && said ~ /^Numbers given back/ { order = said }
FNR == NR && /^    PEDRALUME_[A-Z_]* = [0-9]*,? *\/\* / {
    text = $0
    gsub(/^.*\/\* | \*\/$/, "", text)
    numbers = numbers ".TP\n" $3 + 0 "\n" $1 ": " text "\n"
    next
}
FNR == NR && /^(static inline|uint64_t) / { open = 1 }
FNR == NR && open {
    line = $0
    open = line !~ /\)/
    sub(/\).*/, ");", line)
    declaration = declaration plain(line) "\n"
    if (!open) keep()
    next
}
FNR == NR { if ($0 != "") said = ""; next }

/^@OWNS@$/ { printf "%s", chapters["WHO OWNS WHAT"]; next }
/^@GIVES@$/ { printf "%s.PP\n%s", chapters["WHAT A CALL GIVES BACK"], order; next }
/^@PROTOTYPES@$/ { printf "%s", prototypes; next }
/^@CALLS@$/ { printf "%s", calls; next }
/^@HELPERS@$/ { printf "%s", helpers; next }
/^@NUMBERS@$/ { printf "%s", numbers; next }
{ print }
