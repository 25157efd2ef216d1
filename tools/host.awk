# Writes a host in C for a header that `copilot compile` made, with samples of its externs as statements: it steps once for
# each of the first `steps` rows, and prints each call as `copilot interpret` does.
# Use: awk -v steps=N -v header=NAME.h -f host.awk NAME.h rows.csv
function printer(type, name) {
    sub(/^struct /, "", type)
    return "p_" type "(" name ");"
}

BEGIN {
    FS = ","
    print "#include <stdio.h>"
    print "#include \"" header "\""
    print "static unsigned long now;"
    print "static void p_bool(bool v) { printf(\"%s\", v ? \"true\" : \"false\"); }"
    split("int8_t int16_t int32_t int64_t", signed, " ")
    split("uint8_t uint16_t uint32_t uint64_t", unsigned_, " ")
    for (i = 1; i <= 4; i++) {
        print "static void p_" signed[i] "(" signed[i] " v) { printf(\"%lld\", (long long)v); }"
        print "static void p_" unsigned_[i] "(" unsigned_[i] " v) { printf(\"%llu\", (unsigned long long)v); }"
    }
}

# the header: a type's printer, an extern's definition, a handler that prints
FNR == NR && /^struct cp_arr_/ {
    match($0, /struct cp_arr_[A-Za-z0-9_]+ /); name = substr($0, RSTART + 7, RLENGTH - 8)
    body = $0; sub(/^[^{]*\{ /, "", body); sub(/ e\[.*/, "", body)
    count = $0; sub(/^.* e\[/, "", count); sub(/\].*/, "", count)
    print "static void p_" name "(struct " name " v) { for (int i = 0; i < " count "; i++) { printf(i ? \",\" : \"[\"); " printer(body, "v.e[i]") " } printf(\"]\"); }"
    next
}
FNR == NR && /^struct / {
    match($0, /struct [A-Za-z0-9_]+ /); name = substr($0, RSTART + 7, RLENGTH - 8)
    body = $0; sub(/^[^{]*\{ /, "", body); sub(/ *\};.*/, "", body)
    n = split(body, part, /; */); text = ""
    for (i = 1; i <= n; i++) {
        if (part[i] == "") continue
        member = part[i]; sub(/^.* /, "", member); type = part[i]; sub(/ [^ ]*$/, "", type)
        text = text " printf(\"" (i > 1 ? "," : "{") "\"); " printer(type, "v." member)
    }
    print "static void p_" name "(struct " name " v) {" text " printf(\"}\"); }"
    next
}
FNR == NR && /^extern / { line = $0; sub(/^extern /, "", line); print line; next }
FNR == NR && /^void / && !/^void step\(void\);/ {
    line = $0; sub(/^void /, "", line); name = line; sub(/\(.*/, "", name)
    types = line; sub(/^[^(]*\(/, "", types); sub(/\);$/, "", types)
    n = types == "void" ? 0 : split(types, type_, /, */); params = n ? "" : "void"; prints = ""
    for (i = 1; i <= n; i++) {
        params = params (i > 1 ? ", " : "") type_[i] " a" i
        prints = prints " printf(\" \"); " printer(type_[i], "a" i)
    }
    print "void " name "(" params ") { printf(\"%lu " name "\", now);" prints " printf(\"\\n\"); }"
    next
}
FNR == NR { next }

# the samples: the elements of an array stand in the member e of its struct
FNR == 1 {
    columns = NF
    for (i = 1; i <= NF; i++) { column[i] = $i; gsub(/\[/, ".e[", column[i]) }
    print "int main(void)\n{"
}
FNR > 1 && FNR <= steps + 1 {
    for (i = 1; i <= columns; i++)
        if (column[i] != "k") print "  " column[i] " = " ($i == "-2147483648" ? "(-2147483647 - 1)" : $i) ";"
    print "  step();\n  now++;"
}
END { print "  return 0;\n}" }
