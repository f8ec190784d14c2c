# Makes a C program of include/prunepocket.h that prints the layout of every struct in it, as the `layout` of bindings/
# does: a line for each struct with its size and alignment, then one for each of its fields with offset and size. A
# struct has its Rust name. Fails on a declaration that it does not understand.
function refuse(why) {
    print FILENAME ":" FNR ": " why ": " $0 > "/dev/stderr"
    failed = 1
    exit 1
}

# prunepocket_report_fields is ReportFields.
function rust_name(name,    words, count, i, made) {
    count = split(name, words, "_")
    for (i = 2; i <= count; i++)
        made = made toupper(substr(words[i], 1, 1)) substr(words[i], 2)
    return made
}

BEGIN {
    print "#include \"prunepocket.h\""
    print "#include <stdalign.h>"
    print "#include <stdio.h>"
    print "#define STRUCT(name, type) printf(\"%s %zu %zu\\n\", name, sizeof(type), alignof(type))"
    print "#define FIELD(name, type, field) \\"
    print "    printf(\"%s.%s %zu %zu\\n\", name, #field, offsetof(type, field), sizeof((type *)NULL)->field)"
    print "int main(void)"
    print "{"
}

!inside && /^struct prunepocket_[a-z_]+ \{$/ {
    arguments = "\"" rust_name($2) "\", struct " $2
    print "    STRUCT(" arguments ");"
    inside = 1
    structs++
    next
}

!inside && /^[^ ].*(\{|typedef|union|enum)/ && !/^extern "C" \{$/ {
    refuse("not a struct as the others are")
}

inside && /^};$/ {
    inside = 0
    next
}

inside {
    sub(/ *\/\*.*\*\/$/, "")
    if ($0 !~ /^    (struct )?[a-z0-9_]+ [a-z_]+(\[[A-Z0-9_]+\])?;$/)
        refuse("not a field as the others are")
    sub(/(\[.*)?;$/, "", $NF)
    print "    FIELD(" arguments ", " $NF ");"
}

END {
    if (failed)
        exit 1
    if (inside || structs == 0)
        refuse("no struct, or one without an end")
    print "    return 0;"
    print "}"
}
