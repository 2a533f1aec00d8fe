# Holds the C header against the Rattle source, as texts: neither is compiled, so what cannot be read is told too.
#   awk -f header.awk HEADER .../console_c/src/.. .../rules/src/reasons.rt .../rules/src/limits.rt
# A line for each difference, and exit status 1; one line that counts, and 0, where there is none.

FILENAME ~ /\.h$/ && /\\$/ { tell("cannot read a line that goes on in the next: '" $0 "'") }
FILENAME ~ /\.h$/ { header = header $0 "\n"; next }
{ sub(/\/\/.*/, "") }
FILENAME ~ /\/reasons\.rt$/ { read_reason($0); next }
FILENAME ~ /\/limits\.rt$/ { read_constant($0); next }
{ source = source " " $0 }

END {
    # What no constant of the source stands behind.
    split("VERSION_MAJOR VERSION_MINOR PLAIN PREFIX MOST_FOUND_BYTES", names, " ")
    for (k in names)
        own[names[k]] = 1
    read_source(source)
    read_header(without_comments(header))
    for (k = 1; k <= calls; k++)
        compare_call(call[k])
    for (k = 1; k <= constants; k++)
        compare_constant(constant[k])
    # A line of a plan is at most '(m511 64)' and its line feed.
    if (values["header", "MOST_FOUND_BYTES"] != 10 * values["source", "MOST_LIMIT"])
        tell("ILDORZHEN_MOST_FOUND_BYTES is not ten for each of the source's MOST_LIMIT")
    if (!differs)
        print "header: " calls " calls and " same " constants, as the source has them"
    exit differs
}

function tell(text) {
    print "header: " text
    differs = 1
}

function squeeze(text) {
    gsub(/[ \t\n]+/, " ", text)
    gsub(/^ | $/, "", text)
    return text
}

# ---- The source ----

# Every function that C is to call is exported under its own name, and nothing else is.
function read_source(text,   pieces, count, k, piece) {
    count = split(text, pieces, /#\[unsafe\(no_mangle\)\]/)
    for (k = 1; k <= count; k++) {
        piece = squeeze(pieces[k])
        if (k > 1 && sub(/^pub extern "C" fn /, "", piece))
            read_function(piece)
        else if (k > 1)
            tell("the source exports what is no 'pub extern \"C\" fn': '" substr(piece, 1, 60) "'")
        if (match(piece, /extern "C"/))
            tell("the source has no #[unsafe(no_mangle)] before '" substr(piece, RSTART, 60) "'")
    }
    if (count < 2)
        tell("the source exports nothing")
}

function read_function(text,   name, from, to) {
    from = index(text, "(")
    to = index(text, ")")
    name = substr(text, 1, from - 1)
    if (name !~ /^[a-z0-9_]+$/ || substr(text, to + 1) !~ /^ -> u64( |$)/)
        tell("cannot read the source's function '" substr(text, 1, 60) "'")
    else
        keep_call("source", name, in_c(name, substr(text, from + 1, to - from - 1)))
}

# The parameters as C has them: a slice is a pointer and then a length.
function in_c(function_name, list,   parts, count, k, at, name, type, out) {
    count = split(list, parts, ",")
    for (k = 1; k <= count; k++) {
        if ((parts[k] = squeeze(parts[k])) == "")
            continue
        at = index(parts[k], ": ")
        name = substr(parts[k], 1, at - 1)
        type = substr(parts[k], at + 2)
        if (type == "u64")
            out = out ", uint64_t " name
        else if (type == "&[u8]")
            out = out ", const uint8_t *" name ", size_t " name "_length"
        else if (type == "&mut [u8]")
            out = out ", uint8_t *" name ", size_t " name "_length"
        else
            tell(function_name ": cannot say in C the source's '" parts[k] "'")
    }
    return out == "" ? "void" : substr(out, 3)
}

function read_constant(line,   parts) {
    if (line !~ /pub const /)
        return
    line = squeeze(line)
    if (line !~ /^pub const [A-Z0-9_]+: (u8|u16|u32|u64|usize) = [0-9][0-9_]*;$/)
        return tell("cannot read the source's constant '" line "'")
    split(line, parts, /[ :;]+/)
    gsub(/_/, "", parts[6])
    keep_constant("source", parts[3], parts[6])
}

# A line of the enum of reasons: its name in C is in capitals, a line below before each that is not the first. Outside it a constant is one.
function read_reason(line,   parts) {
    if (line ~ /^pub enum Reason \{$/) {
        among = 1
    } else if (line ~ /^}$/) {
        among = 0
    } else if (among) {
        line = squeeze(line)
        if (line !~ /^[A-Z][A-Za-z]* = [0-9]+,$/)
            return tell("cannot read the source's reason '" line "'")
        split(line, parts, /[ =,]+/)
        keep_constant("source", capitals(parts[1]), parts[2])
    } else {
        read_constant(line)
    }
}

function capitals(name,   k, letter, out) {
    for (k = 1; k <= length(name); k++) {
        letter = substr(name, k, 1)
        out = out (k > 1 && letter ~ /[A-Z]/ ? "_" : "") toupper(letter)
    }
    return out
}

# ---- The header ----

function without_comments(text,   at, out) {
    while ((at = index(text, "/*")) > 0) {
        out = out substr(text, 1, at - 1) " "
        text = substr(text, at + 2)
        at = index(text, "*/")
        text = at > 0 ? substr(text, at + 2) : ""
    }
    out = out text
    gsub(/\/\/[^\n]*/, "", out)
    return out
}

# Nothing but the frame, constants and declarations: a condition or another macro could change what the compiler sees.
function read_header(text,   lines, count, k, line, declarations) {
    count = split(text, lines, "\n")
    for (k = 1; k <= count; k++) {
        line = squeeze(lines[k])
        if (line == "#ifdef __cplusplus") {
            k += 2
            line = squeeze(lines[k - 1]) " " squeeze(lines[k])
            if (line != "extern \"C\" { #endif" && line != "} #endif")
                tell("cannot read '" line "' for C++")
        } else if (line ~ /^#/) {
            read_directive(line)
        } else {
            declarations = declarations " " line
        }
    }
    read_declarations(declarations)
}

function read_directive(line,   parts) {
    if (line != "#endif" && seen[line]++)
        tell("'" line "' is twice in the header")
    if (line ~ /^#(ifndef|define) ILDORZHEN_H$/ || line ~ /^#include <std(def|int)\.h>$/ || line == "#endif")
        return
    if (line == "#define ILDORZHEN_VERSION (1000 * ILDORZHEN_VERSION_MAJOR + ILDORZHEN_VERSION_MINOR)")
        return
    if (line !~ /^#define ILDORZHEN_[A-Z0-9_]+ (0|[1-9][0-9]*)$/)
        return tell("cannot read '" line "'")
    split(line, parts, " ")
    keep_constant("header", substr(parts[2], 11), parts[3])
}

function read_declarations(text,   parts, count, k, part, from) {
    count = split(text, parts, ";")
    for (k = 1; k <= count; k++) {
        part = squeeze(parts[k])
        gsub(/ ?\* ?/, " *", part)
        gsub(/ ?, ?/, ", ", part)
        gsub(/ ?\( ?/, "(", part)
        gsub(/ ?\)/, ")", part)
        from = index(part, "(")
        if (k < count && part ~ /^uint64_t [a-z0-9_]+\([^()]+\)$/)
            keep_call("header", substr(part, 10, from - 10), substr(part, from + 1, length(part) - from - 1))
        else if (part != "")
            tell("cannot read the declaration '" part "'")
    }
}

# ---- The two beside each other ----

function keep_call(side, name, list) {
    if ((side, name) in parameters)
        tell(name " is twice in the " side)
    if (!(("source", name) in parameters) && !(("header", name) in parameters))
        call[++calls] = name
    parameters[side, name] = list
}

function keep_constant(side, name, value) {
    if ((side, name) in values)
        tell(name " is twice in the " side)
    if (!(("source", name) in values) && !(("header", name) in values))
        constant[++constants] = name
    values[side, name] = value
}

function compare_call(name,   ours, theirs, count, more, k) {
    if (!(("header", name) in parameters))
        return tell(name " is missing in the header")
    if (!(("source", name) in parameters))
        return tell(name " is in the header and not in the source")
    count = split(parameters["header", name], ours, ", ")
    more = split(parameters["source", name], theirs, ", ")
    for (k = 1; k <= count || k <= more; k++)
        if (ours[k] != theirs[k])
            tell(name ", parameter " k ": '" ours[k] "' in the header, '" theirs[k] "' by the source")
}

function compare_constant(name) {
    if (!(("header", name) in values))
        tell("ILDORZHEN_" name " is missing in the header; the source has " values["source", name])
    else if (("source", name) in values && values["header", name] != values["source", name])
        tell("ILDORZHEN_" name " is " values["header", name] " in the header, " values["source", name] " in the source")
    else if (("source", name) in values)
        same++
    else if (!(name in own))
        tell("ILDORZHEN_" name " is in the header and not in the source")
}
