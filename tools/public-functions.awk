# Prints a line for each public function of a Rattle source file:
#
#     FILE:LINE NAME ENSURES REQUIRES
#
# NAME is the function's, with its type's before it for a method (Type::name). ENSURES and REQUIRES count the clauses
# before the function's body. A function is public where `pub` stands alone: one marked `pub(crate)` is not. So is one
# of a trait's impl, where ENSURES counts the ghost member that states what it does too: the one of its name (`ghost eq`),
# and `ghost output` for `fmt`. Comments and literals are passed over, so nothing in them counts.

# Ends an impl: of a trait's, the ghost members may stand behind the functions.
function close_impl(i, parts)
{
    for (i = 1; i <= holds; i++) {
        split(held[i], parts, "::")
        if (parts[2] in stated || (parts[2] == "fmt" && "output" in stated)) ensures[i]++
        print held[i], ensures[i], requires[i]
    }
    split("", stated)
    holds = trait = 0
    type = ""
}

# Takes the next word or sign of the source.
function token(t)
{
    if (state == "clause") {
        # `ensures { .. }` or `ensures name { .. }`, with braces nested in it
        if (t == "{") {
            braces++
        } else if (t == "}") {
            braces--
            if (braces == 0) state = "signature"
        }
    } else if (state == "signature") {
        if (t == "(" || t == "[") {
            brackets++
        } else if (t == ")" || t == "]") {
            brackets--
        } else if (brackets == 0 && (t == "ensures" || t == "requires")) {
            clauses[t]++
            braces = 0
            state = "clause"
        } else if (brackets == 0 && (t == "{" || t == ";")) {
            if (public && trait) {
                held[++holds] = place " " name
                ensures[holds] = clauses["ensures"]
                requires[holds] = clauses["requires"]
            } else if (public) {
                print place, name, clauses["ensures"], clauses["requires"]
            }
            public = 0
            state = ""
            if (t == "{") depth++
        }
    } else if (state == "name") {
        name = (type == "") ? t : type "::" t
        clauses["ensures"] = clauses["requires"] = 0
        brackets = 0
        state = "signature"
    } else if (state == "impl") {
        # `impl Type {`, `impl<'a> Type<'a> {` or `impl Trait for Type {`
        if (t == "<") {
            angles++
        } else if (t == ">") {
            angles--
        } else if (t == "{") {
            outside = depth
            depth++
            state = ""
        } else if (angles == 0 && t == "for") {
            trait = 1
            type = ""
        } else if (angles == 0 && type == "") {
            type = t
        }
    } else if (state == "use") {
        if (t == ";") state = ""
    } else if (state == "ghost") {
        if (t != "use") stated[t] = 1
        state = (t == "use") ? "use" : ""
    } else if (t == "pub") {
        public = 1
    } else if (t == "fn") {
        if (trait && depth == outside + 1) public = 1
        place = FILENAME ":" FNR
        state = "name"
    } else if (t != "extern" && t != "\"" && t != "const" && t != "unsafe") {
        # Only those words stand between `pub` and `fn`. A `(` there makes it `pub(crate)`.
        public = 0
        if (t == "{") {
            depth++
        } else if (t == "}") {
            depth--
            if (depth == outside) close_impl()
        } else if (t == "use") {
            state = "use"
        } else if (t == "impl") {
            type = ""
            angles = 0
            state = "impl"
        } else if (t == "ghost" && trait && depth == outside + 1) {
            state = "ghost"
        }
    }
}

{
    rest = $0
    while (rest != "") {
        if (text) {
            # inside a string, which may go on over lines
            if (!match(rest, /^([^"\\]|\\.)*"/)) break
            text = 0
            token("\"")
        } else if (match(rest, /^[ \t\r]+/)) {
            # nothing
        } else if (match(rest, /^\/\//)) {
            break
        } else if (match(rest, /^b?"/)) {
            text = 1
        } else if (match(rest, /^b'([^'\\]|\\x[0-9A-Fa-f][0-9A-Fa-f]|\\.)'/)) {
            # a byte, which may be a brace
        } else if (match(rest, /^[A-Za-z_][A-Za-z0-9_]*/)) {
            token(substr(rest, 1, RLENGTH))
        } else {
            match(rest, /^./)
            token(substr(rest, 1, 1))
        }
        rest = substr(rest, RLENGTH + 1)
    }
}

END {
    if (state != "" || text || depth != 0) {
        print FILENAME ": the file ends inside a function, a block or a string" > "/dev/stderr"
        exit 2
    }
}
