# Prints the functions that a file exports or imports under a C name, one to a line: name, parameters, result.
# A slice is written as C sees it: `out: &mut [f64]` as `out: *mut f64, out_len: usize`.
{ sub(/\/\/.*/, ""); text = text " " $0 }
END {
    gsub(/[ \t]+/, " ", text)
    while (match(text, /fn cintrok_[a-z0-9_]+\([^)]*\)( -> [a-z0-9]+)?/)) {
        one = substr(text, RSTART + 3, RLENGTH - 3)
        text = substr(text, RSTART + RLENGTH)
        from = index(one, "(")
        to = index(one, ")")
        n = split(substr(one, from + 1, to - from - 1), parameter, ",")
        list = ""
        for (i = 1; i <= n; i++) {
            p = parameter[i]
            gsub(/^ | $/, "", p)
            if (p == "") continue
            list = list (list == "" ? "" : ", ") as_c(p)
        }
        print substr(one, 1, from) list substr(one, to)
    }
}
function as_c(p, name, kind) {
    if (p !~ /: &(mut )?\[/) return p
    name = p
    sub(/:.*/, "", name)
    kind = p ~ /&mut/ ? "*mut " : "*const "
    sub(/^[^[]*\[/, "", p)
    sub(/\]$/, "", p)
    return name ": " kind p ", " name "_len: usize"
}
