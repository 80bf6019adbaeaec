# Prints the item `name` of a Rust file as it stands: a function, an enum or a struct, `pub` or not, from the line that names it at the margin, with the attributes
# before it, to the brace at the margin that closes it; a constant or a type from that line to the semicolon that ends it.
# It notes in the file `taken` where the item stood. Its status is 1 unless the file has it just once.
!inside && match($0, /^(pub )?(fn|enum|struct|const|type) [A-Za-z0-9_]+/) {
    word = substr($0, RSTART, RLENGTH)
    sub(/^.* /, "", word)
    if (word == name) { inside = 1; found++; first = NR - count; printf "%s", attributes }
}
inside { print }
inside && (/^}/ || /^[a-z].*;$/) { inside = 0; printf "    %s, lines %d to %d of %s\n", name, first, NR, FILENAME >> taken }
/^#\[/ { attributes = attributes $0 "\n"; count++; next }
{ attributes = ""; count = 0 }
END { exit found != 1 || inside }
