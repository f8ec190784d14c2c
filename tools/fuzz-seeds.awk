# Turns a file of fuzz/seeds into lines for the shell: a name, and its bytes as octal escapes for printf.
# N*WORD and N*(WORDS) stand for N times the same bytes, and brackets do not stand within brackets.

function octal(hex,    text, i) {
    if (length(hex) % 2 != 0 || hex ~ /[^0-9A-Fa-f]/) {
        print FILENAME ":" FNR ": not bytes in hex: " hex > "/dev/stderr"
        exit 1
    }
    hex = toupper(hex)
    for (i = 1; i < length(hex); i += 2)
        text = text sprintf("\\%03o", 16 * digit(substr(hex, i, 1)) + digit(substr(hex, i + 1, 1)))
    return text
}

function digit(letter) {
    return index("0123456789ABCDEF", letter) - 1
}

function times(many, text,    all) {
    while (many-- > 0)
        all = all text
    return all
}

/^#/ || NF == 0 { next }

{
    bytes = ""
    group = ""
    many = 0
    for (i = 2; i <= NF; i++) {
        word = $i
        if (word ~ /^[0-9]+\*\(/) {
            many = word + 0
            group = ""
            sub(/^[0-9]+\*\(/, "", word)
        }
        closes = sub(/\)$/, "", word)
        if (word ~ /\*/)
            text = times(word + 0, octal(substr(word, index(word, "*") + 1)))
        else
            text = octal(word)
        if (many > 0)
            group = group text
        else
            bytes = bytes text
        if (closes) {
            bytes = bytes times(many, group)
            many = 0
        }
    }
    print $1, bytes
}
