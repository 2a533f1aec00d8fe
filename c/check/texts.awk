# Holds what is said of each refusal of the source against it, and README's example against the file.
#   awk -f texts.awk .../rules/src/reasons.rt c/words.c c/example.c c/example.out README.md
# A line for each difference, and exit status 1; one line that counts, and 0, where there is none.

FILENAME ~ /reasons\.rt$/ && /^pub enum Reason / { among = 1; next }
FILENAME ~ /reasons\.rt$/ && /^}/ { among = 0 }
FILENAME ~ /reasons\.rt$/ && among {
    name[++refusals] = capitals($1)
    number[refusals] = $3 + 0
}
FILENAME ~ /words\.c$/ { words = words $0 "\n" }
FILENAME ~ /README\.md$/ { readme = readme $0 "\n" }
FILENAME ~ /example\./ { block[FILENAME] = block[FILENAME] ($0 == "" ? "" : "    " $0) "\n" }

END {
    for (k = 1; k <= refusals; k++) {
        if (!index(words, "{ILDORZHEN_" name[k] ","))
            tell("c/words.c has no row for ILDORZHEN_" name[k])
        if (!index(readme, "\n| " number[k] " | `" name[k] "` | "))
            tell("README has no row that begins '| " number[k] " | `" name[k] "` |'")
    }
    for (file in block)
        if (!index(readme, "\n\n" block[file] "\n"))
            tell("README does not show " file " as it is, each line moved in by four")
    if (!refusals)
        tell("the source has no reasons")
    if (!differs)
        print "texts: " refusals " refusals in c/words.c and README, README's example as in c/example.c"
    exit differs
}

# A name of the source as C has it: in capitals, a line below before each that is not the first.
function capitals(name,   k, letter, out) {
    for (k = 1; k <= length(name); k++) {
        letter = substr(name, k, 1)
        out = out (k > 1 && letter ~ /[A-Z]/ ? "_" : "") toupper(letter)
    }
    return out
}

function tell(text) {
    print "texts: " text
    differs = 1
}
