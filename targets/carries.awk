# Tells whether a module carries over to other machines: every line of it has to be of a form that means the same on each
# little-endian machine whose pointers have 64 bits or fewer. Whatever else stands there is told with its line and refused:
# an address as a number, compared pointers, a constant that could hold a pointer, a structure that LLVM would lay out in more
# ways than one, code for one processor, an attribute that is not known, a pointer's slot used as something else.
# Two numbers as a structure, each aligned to its own size, lie alike wherever numbers of 64 bits are aligned to 8 bytes; so do a
# pointer and a number of 64 bits behind it, which stands at 8 bytes whatever the pointer takes. A byte and a pointer behind it may go
# from function to function; from memory they are loaded by lines of one form alone, which targets/build takes apart where pointers
# have 32 bits. What an inner function is handed need not be known to be a number: it is where it is looked at.
BEGIN {
    name = "(%[A-Za-z0-9_.]+|%\"[^\"]*\")"
    symbol = "(@[A-Za-z0-9_.]+|@\"[^\"]*\")"
    whole = "(i1|i8|i16|i32|i64)"
    lying = "\\{ ((i8|i16|i32|i64), (i8|i16|i32|i64)|ptr, i64) \\}"
    pair = "(" lying "|\\{ i8, ptr \\})"
    value = "(" name "|-?[0-9]+|true|false)"
    typed = "(" whole " " value "|ptr " name ")"
    result = name " = "
    operation = "(add|sub|mul|udiv|urem|sdiv|srem|and|or|xor|shl|lshr|ashr)( nuw| nsw| exact)*"
    compare = "icmp (eq|ne|ult|ule|ugt|uge|slt|sle|sgt|sge)"
    parameter = "(ptr|" whole ") noundef( zeroext)? " name
    passed = "(ptr|" whole ")( noundef)?( zeroext)? " name
    form["alloca"] = result "alloca (" whole "|ptr|\\[[0-9]+ x i8\\]), align [0-9]+"
    form["load"] = result "load (" whole "|ptr|" lying "), ptr " name ", align [0-9]+(, !range ![0-9]+)?(, !noundef ![0-9]+)?"
    form["byte and pointer"] = result "load \\{ i8, ptr \\}, ptr %[A-Za-z0-9_.]+, align 8"
    form["store"] = "store " typed ", ptr " name ", align [0-9]+"
    form["constant"] = "store ptr " symbol ", ptr " name ", align [0-9]+"
    form["getelementptr"] = result "getelementptr( inbounds)?( nuw)? i8, ptr " name ", i64 " value
    form["operation"] = result operation " " whole " " value ", " value
    form["icmp"] = result compare " " whole " " value ", " value
    form["null"] = result "icmp (eq|ne) ptr " name ", null"
    form["extractvalue"] = result "extractvalue " pair " " name ", [01]"
    form["cast"] = result "(zext|sext|trunc)( nuw| nsw| nneg)* " whole " " value " to " whole
    form["select"] = result "select i1 " value ", " whole " " value ", " whole " " value
    form["call"] = "(" result ")?call (void|" whole "|" pair ") " symbol "\\((" typed "(, " typed ")*)?\\)"
    form["br"] = "br (label " name "|i1 " value ", label " name ", label " name ")"
    form["switch"] = "switch " whole " " value ", label " name " \\["
    form["arm"] = whole " -?[0-9]+, label " name
    form["ret"] = "ret (void|" whole " " value "|" pair " " name ")"
    form["rest"] = "(\\]|unreachable)"
    for (kind in form) form[kind] = "^  +" form[kind] "$"
    inner = "^define internal (noundef )?(zeroext )?(void|" whole "|" pair ") " symbol "\\((" passed "(, " passed ")*)?\\) #[01] \\{$"
    # A structure of 8 bytes that is handed over by value is a number of 64 bits here, and has to be one in the header too.
    handed = "(" parameter "|i64 " name ")"
    outer = "^define (noundef )?(void|i32|i64) " symbol "\\((" handed "(, " handed ")*)?\\) #0 \\{$"
    outside = "^declare void @llvm\\.(memmove\\.p0\\.p0\\.i64|memset\\.p0\\.i64|trap)\\("
    bytes = "^" symbol " = private unnamed_addr constant \\[[0-9]+ x i8\\] c\"[^\"]*\", align [0-9]+$"
    size["i1"] = size["i8"] = 1; size["i16"] = 2; size["i32"] = 4; size["i64"] = size["ptr"] = 8
    split("nounwind \"probe-stack\"=\"inline-asm\" \"stack-probe-size\"=\"3072\" \"target-cpu\"=\"x86-64-v2\" nocallback nofree nobuiltin willreturn cold noreturn alwaysinline", words, " ")
    for (i in words) attribute[words[i]] = 1
}

# Tells a line that is refused, the first ten of them.
function refuse(why) {
    if (bad++ < 10) print FILENAME ":" FNR ": " why ": " $0 > "/dev/stderr"
}

# Whether each attribute of a line is known.
function attributes_known(line,    parts, n, i) {
    sub(/^attributes #[0-9]+ = \{ /, "", line)
    sub(/ \}$/, "", line)
    gsub(/memory\((argmem: (readwrite|write)|inaccessiblemem: write)\)/, "cold", line)
    n = split(line, parts, " ")
    for (i = 1; i <= n; i++) if (!(parts[i] in attribute)) return 0
    return n > 0
}

# Notes an access of a type by a register, so many bytes behind its place; a pointer's 8 bytes and a number's must not meet.
function access(register, type, behind,    base, from, i, old) {
    register = register in root ? register : ""
    if (register == "") return
    base = root[register]; from = offset[register] + behind
    for (i = 1; i <= accesses[base]; i++) {
        split(seen[base, i], old, " ")
        if ((old[2] == "ptr") != (type == "ptr") && old[1] < from + size[type] && from < old[1] + size[old[2]])
            refuse("a pointer's place is used as a number's")
    }
    seen[base, ++accesses[base]] = from " " type
}

# Follows which place a register leads to: a slot of its own, one behind another by a constant, or one that is not known.
function follow(kind,    parts, register) {
    split($0, parts, /[ ,]+/)
    register = parts[2]
    if (kind == "alloca") {
        root[register] = register; offset[register] = 0
        if (/ = alloca ptr/ && !/align 8$/) refuse("a pointer's slot is not aligned to 8 bytes")
    } else if (kind == "getelementptr" && / i64 [0-9]+$/) {
        match($0, /ptr %[A-Za-z0-9_.]+/)
        register = substr($0, RSTART + 4, RLENGTH - 4)
        if (!(register in root)) { root[register] = register; offset[register] = 0 }
        root[parts[2]] = root[register]; offset[parts[2]] = offset[register] + $NF
    } else if (kind == "load" || kind == "byte and pointer") {
        match($0, /, ptr %[A-Za-z0-9_.]+/)
        register = substr($0, RSTART + 6, RLENGTH - 6)
        if (parts[5] == "{") {
            access(register, parts[6], 0)
            access(register, parts[7], size[parts[6]] > size[parts[7]] ? size[parts[6]] : size[parts[7]])
        } else access(register, parts[5], 0)
    } else if (kind == "store" || kind == "constant") {
        match($0, /, ptr %[A-Za-z0-9_.]+/)
        access(substr($0, RSTART + 6, RLENGTH - 6), parts[3], 0)
        if (kind == "constant" && !(parts[4] in constant)) refuse("the address of what is no constant of bytes")
    }
}

# A line of a function's body, of which comments are gone.
function body(    kind) {
    if (/^$/ || /^[A-Za-z0-9_.]+:$/) return
    if (/^}$/) { within = 0; return }
    for (kind in form) if ($0 ~ form[kind]) { follow(kind); return }
    if (/ptrtoint|inttoptr/) refuse("an address as a number")
    else if (/ = icmp [a-z]+ ptr /) refuse("pointers are compared")
    else if (/ asm /) refuse("code for one processor")
    else if (/[{<]/) refuse("a structure or a vector")
    else refuse("a form that is not known")
}

{ sub(/ +; (preds = .*|No predecessors!)$/, "") }
within { body(); next }
/^$/ || /^;/ || /^source_filename = "rattle"$/ { next }
/^target triple = "x86_64-unknown-linux-gnu"$/ || /^target datalayout = "e-/ { next }
/^define / {
    if ($0 !~ inner && $0 !~ outer) refuse("a function of a form that is not known")
    split("", root); split("", offset); split("", accesses); split("", seen)
    within = 1; functions++
    next
}
$0 ~ outside { next }
$0 ~ bytes { constant[$1] = 1; next }
/^declare / { refuse("a function from outside"); next }
/^@/ { refuse("a constant, which could hold a pointer"); next }
/^attributes / { if (!attributes_known($0)) refuse("an attribute that is not known"); next }
/^!llvm\.ident = !\{!0\}$/ || /^![0-9]+ = !\{!"rattle [^"]*"\}$/ || /^![0-9]+ = !\{(i8 0, i8 [0-9]+)?\}$/ { next }
{ refuse("a line that is not known") }
END {
    if (!functions && !bad) { print FILENAME ": no function" > "/dev/stderr"; bad = 1 }
    if (bad) exit 1
    print "the module was read: " functions " functions, and nothing in it that is bound to one machine"
}
