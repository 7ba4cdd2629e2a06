# Reading texts, running programs, and the causes of refusals. ./farey takes these functions in.

# keeps the text of FILE, or of standard input for -, in a temporary file, whose path goes to the variable NAME. One
# byte over 65,536, and the two of a line end, are enough for a program to see that a text is too long.
take_text() {
    local path
    new_file path
    if [ "$2" = - ]; then
        [ ! -d /dev/stdin ] || fail "standard input is a folder, so there is no answer"
        [ ! -t 0 ] ||
            echo "farey: $word waits for ${reads:-a text} (end with Ctrl-D; ./farey --help $word has an example)" >&2
        { head -c 65539 > "$path"; } 2> /dev/null ||
            fail "standard input could not be read to its end, so there is no answer"
    else
        [ -e "$2" ] || fail "there is no file '$2'"
        [ ! -d "$2" ] || fail "$2 is a folder, and $word reads a file"
        [ -r "$2" ] || fail "$2 may not be read by this user"
        { head -c 65539 < "$2" > "$path"; } 2> /dev/null ||
            fail "$2 could not be read to its end, so there is no answer"
    fi
    printf -v "$1" '%s' "$path"
}

# writes an answer to standard output
write() {
    printf '%s' "$1" 2> /dev/null || fail "standard output could not be written whole, so the answer there is cut short"
}

# whether an answer as a whole is a refusal
is_refusal() {
    [[ $1 =~ ^refused\ [0-9]+\ [0-9]+$'\n'?$ ]]
}

# writes an answer, and says on standard error what its refusals mean: all there is to do at the end. What the text was,
# and what else the cause may need, comes behind it.
finish() {
    write "$1"
    [ $quiet = yes ] || [[ $1 != *refused\ * ]] || explain "$@"
    if [ $strict = yes ] && is_refusal "$1"; then exit 3; fi
}

# the cause of each refusal in an answer, on standard error: by python3 from the text, and without it the sentence of
# its number
explain() {
    local line sentence said
    if command -v python3 > /dev/null && [ -f "$cli/explain.py" ] &&
        said=$(python3 -I -S -B "$cli/explain.py" "$sentences" "$word" "${@:2}" <<< "$1" 2> /dev/null) &&
        [ -n "$said" ]; then
        printf '%s\n' "$said" >&2
        return
    fi
    while IFS= read -r line; do
        [[ $line =~ ^([a-z]+\ )?refused\ ([0-9]+)\ ([0-9]+)$ ]] || continue
        sentence=$(sed -n "s/^${BASH_REMATCH[2]} //p" "$sentences")
        echo "$line: ${sentence//\{place\}/${BASH_REMATCH[3]}}" >&2
    done <<< "$1"
}

# takes one line end, or a carriage return with one, away at the end of a file
without_line_end() {
    local last
    read -r -a last < <(tail -c 2 "$1" | od -A n -t u1)
    case ${last[*]-} in
        '13 10') truncate -s -2 "$1" ;;
        *10) [ "${last[-1]}" -ne 10 ] || truncate -s -1 "$1" ;;
    esac
}

# What the proved program of the word answers to a text, in the variable `answer`. NAME is the job that it is asked for,
# its argument, unless the program itself has that name. It says something on standard error only where it failed, and
# no answer has 'farey:' in it.
ask() {
    local status program=("$here/target/bin/$made_of")
    [ "$made_of" = "$1" ] || program+=("$1")
    answer=$("${program[@]}" < "$2" 2>&1; status=$?; printf .; exit "$status")
    status=$?
    answer=${answer%.}
    [[ $answer != *farey:* ]] || status=1
    [ "$status" -ne 0 ] || return 0
    printf '%s' "$answer" >&2
    fail "$1 failed, so there is no answer"
}

# runs a program or its job NAME over a text
run() {
    local answer
    # in cycle notation a line end is as wrong as any other byte, and most files end in one
    [ "$1" != cycles ] || without_line_end "$2" || fail "there is no room for a temporary file"
    ask "$1" "$2"
    finish "$answer" "${@:2}"
}

# two texts one after the other. Where the first doesn't end in a space or a line end, a line end is put there, so that
# its last number ends too.
joined() {
    cat "$1"
    [ ! -s "$1" ] || [[ $(tail -c 1 "$1" | od -A n -t u1) =~ ^\ *(32|10|13)$ ]] || echo
    cat "$2"
}

# does the job NAME over two files, one of which may be -
over_files() {
    local first second both
    [ "$2 $3" != "- -" ] || wrong "only one of the two can be standard input"
    take_text first "$2"
    take_text second "$3"
    new_file both
    joined "$first" "$second" | head -c 65539 > "$both"
    build "$made_of"
    run "$1" "$both"
}

# A group by its name: the job `named` makes a symbol of it, `intersection` of that with itself gives its coset tables,
# and of these `import-wide` makes the symbol by the wide rule, or `import` the one by the leftmost rule. All of them are
# proved.
by_name() {
    local N family=0 symbol tables answer rule=import-wide
    [[ $2 =~ ^-?0*([0123456789]+)$ ]] || wrong "N is a whole number, and not '$2'"
    N=${BASH_REMATCH[1]}
    # a negative number is out of range, as 0 is
    [[ $2 != -* ]] || N=0
    # a number too long for the program is out of range, which this one is too
    [ "${#N}" -le 18 ] || N=999999999999999999
    [ "$1" != gamma1 ] || family=1
    [ "$1" != gamma ] || family=2
    [ $leftmost = no ] || rule=import
    build "$made_of"
    new_file symbol
    echo "$family $N" > "$symbol"
    ask named "$symbol"
    if ! is_refusal "$answer"; then
        printf '%s%s' "$answer" "$answer" > "$symbol"
        ask intersection "$symbol"
        ! is_refusal "$answer" || fail "the tables of the group could not be made: $answer"
        new_file tables
        printf '%s' "$answer" > "$tables"
        ask $rule "$tables"
        symbol=$tables
    fi
    finish "$answer" "$symbol" "$2"
}

# runs a module of the Python package over a text, with the library
by_python() {
    local module=$1 text=$2 answer status
    shift 2
    command -v python3 > /dev/null || fail "there is no python3 on the PATH, and $word needs it"
    build library
    answer=$(FAREY_LIBRARY=$here/target/libfarey.so PYTHONPATH=$here/python python3 -B -m "$module" "$@" < "$text"
        status=$?
        printf .
        exit "$status")
    status=$?
    [ "$status" -ne 2 ] || wrong "$word has the options --disc and --cusps"
    [ "$status" -eq 0 ] || fail "$word could not be made, so there is no answer"
    finish "${answer%.}" "$text"
}
