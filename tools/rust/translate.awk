# One file of Rattle in, the same file as Rust out; `write` calls it for each. What it does:
#   - `ghost use` lines and contract clauses (requires, ensures; of a closure its ensures in a line) are left out, and a body's brace moves up behind
#     the head; what a function asks of its caller, and its promise's name, go into its doc comment;
#   - comments at the head of the file and before items, fields and variants become doc comments;
#   - structs and enums get the derives that Rattle's plain data has, in place of those that are written;
#   - what an `impl` of a trait says for contracts (`ghost NAME = ..;`) is left out;
#   - `#![tactic(..)]` and `#[tactic(..)]`, which speak of proofs, are left out;
#   - a library is a module here: `crate::` becomes `crate::NAME::`, and each crate that the file names
#     is brought in by a `use`; `std::` becomes the path of the stand-in for it;
#   - `main` takes no `HostRuntime`: it begins with making the stand-in for one;
#   - `Display + Drop` becomes `Display`, since all that can be printed can be let go;
#   - `println!(rt; ..)` is a macro of the stand-ins', which a `use` brings in, as one does `HostRuntime`.
# All else stays. A form that is not listed stops it, with file and line. It relies on the layout that
# `rt ci` holds the sources to: a body ends at a brace under its function's head.
# NAME is the crate, OWN how it calls its package, HOMES where it finds others: `crate=path` ..

function stop(why) {
    printf "%s:%d: %s: %s\n", FILENAME, FNR, why, $0 >"/dev/stderr"
    exit failed = 1
}

# The comment lines that were held back, as doc comments or as they were.
function put_comments(mark, i) {
    for (i = 1; i <= held; i++) { sub("//", mark, comment[i]); out[++lines] = comment[i] }
    held = 0
}

# A line of code as it stands, once nothing is in it that Rust may read otherwise. The crates in it are noted.
function code(text, bare, home) {
    if (text == "" && out[lines] == "") return
    bare = text
    sub(/ \/\/.*/, "", bare)
    if (bare ~ /[\200-\377]/) stop("a sign that Rust does not have")
    if (bare ~ /(^|[^A-Za-z0-9_])println!\(rt; /) used_names["println"] = 1
    if ((" " bare) ~ /[^A-Za-z0-9_:]HostRuntime/) used_names["kit::std::rt::HostRuntime"] = 1
    gsub(/(println!\(rt; |format_args!\(|[^A-Za-z0-9_](write|matches)!\(|&'static )/, "", bare)
    if (bare ~ /[A-Za-z0-9_]![[({]/) stop("a macro")
    if ((" " bare " ") ~ /[^A-Za-z0-9_](ghost|requires|ensures|invariant|decreases|unsafe|static|extern)[^A-Za-z0-9_]/)
        stop("a word that has no place here")
    for (home in homes) if (home != "std" && (" " bare) ~ "[^A-Za-z0-9_:]" home "::") used[home] = 1
    gsub(/: Display \+ Drop/, ": Display", text)
    if (OWN != "programs") gsub(/crate::/, "crate::" NAME "::", text)
    if ((" " bare) ~ /[^A-Za-z0-9_:]std::/) gsub(/std::/, homes["std"] "::std::", text)
    out[++lines] = text
}

# The head of a function, held until its body begins, behind what its clauses say.
function put_function(brace, i) {
    if (held && said) comment[++held] = indent "//"
    for (i = 1; i <= said; i++) comment[++held] = indent "// " clauses[i] (i < said ? "  " : "")
    put_comments("///")
    host = sub(/^fn main\(rt: HostRuntime\)/, "fn main()", head[1])
    for (i = 1; i <= heads; i++) code(head[i] (i == heads ? brace : ""))
    if (host) code(indent "    let rt = std::rt::HostRuntime;")
    said = 0
    state = "body"
}

# A clause leaves the name of a promise, or what it asks.
function note_clause(text) {
    if (match(text, /[A-Z][A-Za-z]*Promise/)) clauses[++said] = "Promise: `" substr(text, RSTART, RLENGTH) "`."
    if (!sub(/^ *requires[^{]*\{ */, "", text)) return
    sub(/ *\} *$/, "", text)
    clauses[++said] = "Asks of its caller: `" text "`."
}

function open_braces(text) { return gsub(/\{/, "{", text) - gsub(/\}/, "}", text) }

BEGIN {
    DERIVES = "#[derive(Clone, Copy, PartialEq, Eq, Debug)]"
    state = "start"; count = split(HOMES, order)
    for (i = 1; i <= count; i++) { split(order[i], pair, "="); homes[order[i] = pair[1]] = pair[2] }
}

# ---- inside something that has begun
state == "body" && /^ +ensures \{ .* \}$/ { next }
state == "body" { code($0); if ($0 == indent "}") state = "items"; next }
state == "constant" { code($0); if (/;$/) state = "items"; next }
state == "use" && /^ +[A-Za-z_0-9, ]+,$/ { code($0); next }
state == "use" && $0 == "};" { code($0); state = "items"; next }
state == "use" { stop("not a form of a use") }
state == "clause" || state == "head" && /^ *(requires|ensures)( [a-z_0-9]+)? \{/ {
    clause = (state == "clause" ? clause : "") $0
    state = open_braces(clause) > 0 ? "clause" : "head"
    if (state == "head") note_clause(clause)
    next
}
state == "head" && $0 == indent "{" { put_function(" {"); next }
state == "head" && /^ *(((mut )?self|(mut )?[a-z_0-9]+: [^{}]*),|\)( -> [^{}]*)?( \{)?)$/ { head[++heads] = $0; if (/\{$/) put_function(""); next }
state == "head" { stop("not a form of a function's head") }

# ---- the head of the file, and comments
state == "start" && sub(/^\/\//, "//!") { top[++tops] = $0; next }
state == "start" { state = "items" }
/^ *\/\// { comment[++held] = $0; next }

# ---- fields and variants
state == "fields" && $0 == "}" { put_comments("//"); code($0); state = "items"; next }
state == "fields" && /^ +((pub )?[a-z_0-9]+: [^{}]*,|[A-Z][A-Za-z0-9]*(\([^{}]*\),|,| = [0-9]+,| \{| \{ [^{}]* \},)|\},)$/ { put_comments("///"); code($0); next }
state == "fields" { stop("not a form of a field or variant") }

# ---- items
/^$/ || /^(pub )?(use|mod) [A-Za-z_0-9:]+;$/ || /^(pub )?use [a-z_0-9:]+::\{[A-Za-z_0-9, ]+\};$/ || /^impl(<'a>)? ((From<[A-Za-z0-9]+>|fmt::Write) for )?[A-Za-z][A-Za-z0-9]*(<'a>)? \{$/ || /^\}$/ { put_comments("//"); code($0); next }
/^(pub )?use [a-z_0-9:]+::\{$/ { put_comments("//"); code($0); state = "use"; next }
/^ghost use .*;$/ || /^#!?\[tactic\(.*\)\]$/ || /^ *#\[tactic\(.*\)\]$/ { next }
/^ +ghost [a-z_]+ = \{.*\};$/ { next }
state == "items" && /^#\[derive\((Clone|Copy|PartialEq|Eq|Debug|Drop)(, (Clone|Copy|PartialEq|Eq|Debug|Drop))*\)\]$/ { derived = 1; next }
derived && !/^(pub )?(struct|enum) / { stop("a derive without its type") }
/^#\[repr\(C\)\]$/ { put_comments("///"); code($0); next }
/^(pub )?(struct|enum) [A-Z][A-Za-z0-9]*(<'[a-z](, '[a-z])*>)? \{$/ { derived = 0; put_comments("///"); code(DERIVES "\n" $0); state = "fields"; next }
/^ *(pub )?const [A-Z_0-9]+: / { put_comments("///"); code($0); if (!/;$/) state = "constant"; next }
/^ *(pub(\(crate\))? )?fn [a-z_0-9]+(<'a>|<const [A-Z]: usize>|<[A-Z]: (Display \+ Drop|Fn\([a-z0-9]+\) -> bool)>)?\((.*\)( -> [^{}]*)?( \{)?)?$/ {
    head[heads = 1] = indent = $0
    sub(/[^ ].*/, "", indent)
    state = "head"
    if (/\{$/) put_function("")
    next
}
{ stop("not a form that this tool knows") }

END {
    if (!failed && state != "items" && state != "start") stop("the file ends in the middle of something")
    if (failed) exit 1
    put_comments("//")
    print "// Written from " FILENAME ", where a change belongs."
    for (i = 1; i <= tops; i++) print top[i]
    for (i = 1; i <= count; i++) if (order[i] in used) print "use " homes[order[i]] "::" order[i] ";"
    for (name in used_names) print "use " (OWN == "programs" ? OWN : "crate") "::" name ";"
    for (i = 1; i <= lines; i++) print out[i]
}
