# Prints where the sources differ from tests/format/contracts, which is the first file; the others are sources.
function trimmed(text) { sub(/^ +/, "", text); return text }
function name_of(signature) { sub(/.*fn /, "", signature); sub(/[(<].*/, "", signature); return signature }

# A part of a name, which may be an operator such as ◌≡◌, is a word of the clause: the name could decide what the clause says.
function decides(name, clause,   parts, i) {
    gsub(/[().;{}]/, " ", clause)
    for (i = split(name, parts, "◌"); i > 0; i--)
        if (parts[i] != "" && index(" " clause " ", " " parts[i] " ")) return 1
    return 0
}

# One name that a `ghost use` brings in, and the line that would bring in just this.
function brought(name, line,   key) {
    for (key in clause)
        if (file_of[key] == FILENAME && decides(name, clause[key])) {
            if (index(uses[key], line "\n")) met[key, line] = 1
            else print FILENAME ": " name_of(signature[key]) ": another '" line "'"
        }
}

function ghost_use(line,   tree, module, names, i, name) {
    tree = line
    sub(/^ghost use /, "", tree)
    sub(/;$/, "", tree)
    if (tree ~ /^[^{} ]+\.\{[^{}]+\}$/ && tree !~ /[{ ](\*|self)[,}]/) {
        module = tree
        sub(/\.\{.*/, "", module)
        gsub(/.*\{|,? *\}/, "", tree)
        for (i = split(tree, names, / *, */); i > 0; i--) {
            name = names[i]
            sub(/.* as /, "", name)
            brought(name, "ghost use " module ".{" names[i] "};")
        }
    } else if (tree ~ /^[^{}* ]+( as [^{}* ]+)?$/) {
        sub(/.*( as |\.)/, "", tree)
        brought(tree, line)
    } else print FILENAME ": a form that this test does not know: " line
}

function header(text,   key) {
    gsub(/\( /, "(", text)
    gsub(/, \)/, ")", text)
    key = FILENAME SUBSEP name_of(text)
    there[key] = 1
    if (!(key in clause)) print FILENAME ": " name_of(text) " is not in tests/format/contracts"
    else if (text != signature[key] " " clause[key]) print FILENAME ": " name_of(text) ": it has '" text "'"
}

NR == FNR && /^crates\// { file = top $0 }
NR == FNR && /^ +(pub|fn|trait|impl) / { key = file SUBSEP name_of(trimmed($0)); file_of[key] = file; signature[key] = trimmed($0) }
NR == FNR && /^ +(requires|ensures|ghost program)/ { clause[key] = trimmed($0) }
NR == FNR && /^ +ghost use / { uses[key] = uses[key] trimmed($0) "\n" }
NR == FNR { next }

FNR == 1 { text = kind = "" }
FNR == 1 || /^}/ { block = "" }
/^pub trait / || /^impl .* for .* \{$/ { block = $0; sub(/^pub /, "", block); sub(/ \{$/, "", block) }
/^ *ghost use / { kind = "use" }
/^(    )?pub (extern "C" )?fn / || (block ~ /^trait/ && /^    fn /) { kind = "fn" }
block != "" && /^    ghost program/ { kind = "program" }
kind == "fn" && /^(    )?\{$/ { header(text); text = kind = "" }
kind != "" { text = text (text == "" ? "" : " ") trimmed($0) }
kind == "use" && /;$/ { ghost_use(text); text = kind = "" }
kind == "fn" && block ~ /^trait/ && /;$/ { header(text); text = kind = "" }
kind == "program" && /;$/ { header(block " " text); text = kind = "" }

END {
    for (key in clause) {
        if (!(key in there)) print file_of[key] ": " name_of(signature[key]) " is not there"
        for (i = split(uses[key], lines, "\n") - 1; i > 0; i--)
            if (!((key, lines[i]) in met)) print file_of[key] ": " name_of(signature[key]) ": no '" lines[i] "'"
        entries++
    }
    if (entries < 31) print "tests/format/contracts has " entries + 0 " entries"
}
