# Help, and the word nearest to a wrong one. ./farey takes these functions in.

# the word of the row that was read last, with what it takes
with_operands() {
    echo "$name${operands:+ $operands}$([ "$kind" != group ] || echo ' [--leftmost]')"
}

# how a word is used, or all of them
usage_of() {
    if [ -n "$1" ] && row_of "$1"; then
        echo "usage: ./farey $(with_operands); ./farey --help $name has more"
    else
        echo "usage: ./farey WORD ..; ./farey --help lists the words"
    fi
}

# all words on one screen, by groups, with the example of each group's first
all_words() {
    local last= name group kind made_of operands reads help example
    cat <<'HEAD'
./farey WORD ..   finite index subgroups of PSL2(Z) by their Farey symbols, by programs that are proved
A FILE that is left out, or -, is standard input. ./farey alone lists Γ0(2). Options: --strict (a refusal has
status 3, otherwise 0), -q (the same, and no cause on standard error), --help WORD, --version.
HEAD
    while IFS='|' read -r name group kind made_of operands reads help example; do
        [[ $name != '#'* ]] || continue
        [ "$group" = "$last" ] || printf '\n%-22s %s\n' "$group:" "$example"
        last=$group
        printf '  %-24s %s\n' "$name${operands:+ $operands}" "$help"
    done < "$cli/words.txt"
}

# the page of one word: its row, and what tools/cli/pages.txt has under '= WORD'
page_of() {
    row_of "$1" || return
    printf './farey %s\n\n%s.\n' "$(with_operands)" "${help^}"
    [ -z "$reads" ] || echo "The text: $reads."
    awk -v word="$1" '/^= / { on = ($2 == word); next } on' "$cli/pages.txt"
    printf '\nFor example: %s\n' "$example"
}

# there is no such word: the nearest one, if one is near, by how many letters are put in, left out, changed or exchanged
no_such_word() {
    local near
    near=$(awk -F '|' -v word="$1" '
        function least(x, y) { return x < y ? x : y }
        function distance(a, b,    i, j, m, n, d, cost) {
            m = length(a); n = length(b)
            for (i = 0; i <= m; i++) d[i, 0] = i
            for (j = 0; j <= n; j++) d[0, j] = j
            for (i = 1; i <= m; i++) for (j = 1; j <= n; j++) {
                cost = substr(a, i, 1) != substr(b, j, 1)
                d[i, j] = least(least(d[i - 1, j] + 1, d[i, j - 1] + 1), d[i - 1, j - 1] + cost)
                if (i > 1 && j > 1 && substr(a, i, 1) == substr(b, j - 1, 1) && substr(a, i - 1, 1) == substr(b, j, 1))
                    d[i, j] = least(d[i, j], d[i - 2, j - 2] + 1)
            }
            return d[m, n]
        }
        BEGIN { word = tolower(substr(word, 1, 40)); gsub("_", "-", word); best = 3 }
        /^#/ { next }
        { d = distance(word, $1); if (d < best && d < length($1)) { best = d; found = $1 } }
        END { print found }' "$cli/words.txt")
    printf "farey: there is no word '%.40s'%s\n" "$1" "${near:+; did you mean $near?}" >&2
    usage_of '' >&2
}
