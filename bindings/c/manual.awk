# What vahepito.h or vahepito.3 says of the library, a line each: `function NAME`, `code NAME`, and
# `returns FUNCTION CODE` for each code that a call lists. `make check` compares the two.
#
#     awk -f manual.awk vahepito.h | sort -u
#     awk -f manual.awk vahepito.3 | sort -u
#
# In the header the comment before a function lists its codes, and `A to B` are all codes from A to B.
BEGIN { is_page = ARGV[1] ~ /\.3$/ }

function name_of(line) { sub(/\(.*/, "", line); sub(/.*[ *]/, "", line); return line }

# Prints the codes that a comment lists for this function.
function list_codes(called, said,    words, word, k, at) {
    words = split(said, word, /[^A-Za-z_]+/)
    for (k = 1; k <= words; k++) {
        if (!(word[k] in number)) continue
        print "returns", called, word[k]
        if (word[k + 1] == "to" && word[k + 2] in number)
            for (at = number[word[k]]; at < number[word[k + 2]]; at++) print "returns", called, codes[at]
    }
}

# The header.
!is_page && /^ *VAHEPITO_[A-Z_]+ = [0-9]+/ { sub(/^ *VAHEPITO_/, ""); codes[++count] = $1; number[$1] = count }
!is_page && /^\/\*/ { said = ""; is_comment = 1 }
!is_page && is_comment { said = said " " $0 }
!is_page && /\*\// { is_comment = 0 }
!is_page && /^$/ { said = "" }
!is_page && /^[a-z].* \*?vahepito_[a-z_]+\(/ && !/^typedef|internal_[a-z_]+\(/ {
    comments[name_of($0)] = /^uint32_t/ ? said : ""
}
END {
    for (k = 1; k <= count; k++) print "code", codes[k]
    for (called in comments) {
        print "function", called
        list_codes(called, comments[called])
    }
}

# The page: functions in its synopsis, and lists of codes behind `.It Fn`, or of what each means behind `.It Dv`.
/^\.Sh / { is_described = is_described || $2 == "DESCRIPTION" }
is_page && !is_described && /^\.F[no] vahepito_/ { print "function", $2 }
is_page && /^\.It/ { split("", calls) }
is_page && /^\.It Fn/ { for (k = 3; k <= NF; k++) if ($k ~ /^vahepito_/) calls[$k] }
is_page && /^\.It Dv/ { for (k = 3; k <= NF; k++) if ($k ~ /^VAHEPITO_/) print "code", substr($k, 10) }
is_page && /^\.El/ { split("", calls) }
is_page && /^\.Dv/ {
    for (called in calls)
        for (k = 2; k <= NF; k++)
            if ($k ~ /^VAHEPITO_/) print "returns", called, substr($k, 10)
}
