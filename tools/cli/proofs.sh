# Proving and compiling: what a word is made of is made where that hasn't been done since its sources last changed.
# ./farey takes these functions in. A thing is a program, by the name of its crate, or the library.

# the things that the words are made of, each once: what ./farey build makes. The library is left out where there is no
# C compiler.
all_things() {
    awk -F '|' '
        /^#/ || $3 !~ /^(program|files|group)$/ { next }
        { n = split($4, name, " "); for (i = 1; i <= n; i++) if (!seen[name[i]]++) print name[i] }' "$cli/words.txt"
    if command -v cc > /dev/null; then
        echo library
    else
        echo "farey: there is no cc on the PATH, so the library isn't made" >&2
    fi
}

# the files of a thing, from the folder of this script
made_files() {
    if [ "$1" = library ]; then
        echo target/libfarey.so target/farey.kit target/staticlib/libengine.a
    else
        echo "target/bin/$1"
    fi
}

# What proves crates and makes things of them: tools/prove, which asks rt crate by crate. A folder without it has an rt
# on the PATH that takes the same words.
prover() {
    if [ -x "$here/tools/prove" ]; then echo "$here/tools/prove"; else echo rt; fi
}

# the crate that a thing is made from
crate_of() {
    [ "$1" = library ] && echo engine || echo "$1"
}

# the crates of this repository that NAME .. are made of, in the order in which rt takes them: a line 'LEVEL CRATE' for
# each. The level is one more than the highest of those that it stands on, so crates of one level need nothing of each
# other.
plan() {
    awk -v names="$*" '
        function visit(crate,    below, i, n) {
            if (crate in level) return
            level[crate] = 0
            n = split(stands_on[crate], below, " ")
            for (i = 1; i <= n; i++) if (below[i] in stands_on) {
                visit(below[i])
                if (level[below[i]] >= level[crate]) level[crate] = level[below[i]] + 1
            }
            print level[crate], crate
        }
        { sub(/#.*/, "") }
        split($0, side, ":") == 2 { split(side[1], word, " "); stands_on[word[1]] = side[2] }
        END {
            n = split(names, name, " ")
            for (i = 1; i <= n; i++) visit(name[i] == "library" ? "engine" : name[i])
        }' "$here/crates.txt" | sort -s -n -k1,1
}

# what the things NAME .. are made from: the list of crates and the folders of those that they stand on; of the library
# also the crate whose exports are in the archive
sources_of() {
    local exports=
    [[ " $* " != *" library "* || ! -d $here/crates/engine_c ]] || exports=" crates/engine_c"
    echo "crates.txt $(plan "$@" | awk '{ print "crates/" $2 }' | paste -s -d ' ')$exports"
}

# the sum of each file of these folders, and its path
contents() {
    (cd "$here" && find "$@" \( -name must-fail -o -name out \) -prune -o -type f -print0 2> /dev/null | LC_ALL=C sort -z |
        xargs -0 sha256sum)
}

# The sources of a thing as one number, of the lines of `contents` on standard input. Contents are compared and not
# times: a file that was edited during a proof is older than the program that the proof leaves behind.
sum_of() {
    awk -v files=" $(sources_of "$1") " '
        { split($2, part, "/"); folder = part[2] == "" ? $2 : part[1] "/" part[2] }
        index(files, " " folder " ")' | sha256sum
}

# what was made, as one number
made_sum() {
    local file
    for file in $(made_files "$1"); do cat "$here/$file"; done | sha256sum
}

# whether there is all that a thing is
is_there() {
    local file
    for file in $(made_files "$1"); do [ -f "$here/$file" ] || return 1; done
    [ "$1" = library ] || [ -x "$here/target/bin/$1" ]
}

# Whether the contents are those of the record of each thing NAME ..: its sources, and what was made of them. If so,
# what the system says of these files without reading them is kept in SEEN for the next time, unless one of them changed
# within the last two seconds: it could change once more and have the same times.
is_proved() {
    local seen=$1 name files before lines record count now
    shift
    for name in "$@"; do
        is_there "$name" && [ -f "$here/target/farey/$name" ] || return 1
    done
    files=$(sources_of "$@")
    for name in "$@"; do files+=" $(made_files "$name")"; done
    # shellcheck disable=SC2086
    before=$(status_of $files)
    # shellcheck disable=SC2046
    lines=$(contents $(sources_of "$@"))
    for name in "$@"; do
        record=$here/target/farey/$name
        [ "$(cat "$record")" = "$(sum_of "$name" <<< "$lines") $(made_sum "$name")" ] || return 1
    done
    # shellcheck disable=SC2086
    [ "$before" = "$(status_of $files)" ] || return 0
    # each file that was read is one of which the system told
    count=$(wc -l <<< "$lines")
    for name in "$@"; do count=$((count + $(made_files "$name" | wc -w))); done
    [ "$(wc -l <<< "$before")" -eq "$count" ] || return 0
    { printf '%s\n%s\n' "$files" "$before" > "$seen.$$"; } 2> /dev/null || return 0
    now=$(find "$seen.$$" -printf '%C@')
    if awk -v now="$now" 'NR > 1 && $4 > now - 2 { young = 1 } END { exit young }' "$seen.$$"; then
        mv "$seen.$$" "$seen"
    else
        rm -f "$seen.$$"
    fi
    return 0
}

# Makes the things NAME .., which aren't fresh. One proof at a time: another would write to the same folder. Where
# nothing was made here yet, all that the words are made of is made at once.
make() {
    local all
    command -v rt > /dev/null || fail "there is no rt on the PATH; the Rattle toolchain is needed"
    command -v flock > /dev/null || fail "there is no flock on the PATH; util-linux has it"
    [[ " $* " != *" library "* ]] || command -v cc > /dev/null ||
        fail "there is no cc on the PATH; the library needs a C compiler"
    exec 9< "$here/crates" || exit 1
    if ! flock -n 9; then
        echo "farey: waiting until another proof in this folder has ended" >&2
        flock 9 || exit 1
    fi
    if ! is_fresh "$@"; then
        if [ -f "$here/target/farey/whole" ]; then
            prove "$@"
        else
            mapfile -t all < <(all_things)
            { (prove "${all[@]}") && : > "$here/target/farey/whole"; } || prove "$@"
        fi
    fi
    exec 9<&-
}

# whether the record of a thing is of these sources, and of something else made of them
is_altered() {
    local record=$here/target/farey/$1
    [ -f "$record" ] && [[ $(cat "$record") == "$2 "* && $(cat "$record") != *" $(made_sum "$1")" ]]
}

# Has rt prove the things NAME .. and all they stand on, and records them once rt, asked again, finds every crate
# unchanged since it was proved. Sources that are edited meanwhile, or edited and edited back, are proved again, so that
# the answer is that of the sources as they are.
prove() {
    local name before round all_unchanged settled=no log=$here/target/farey/log
    local -A sums=()
    mkdir -p "$here/target/farey" || exit 1
    # shellcheck disable=SC2046
    before=$(contents $(sources_of "$@"))
    for name in "$@"; do
        sums[$name]=$(sum_of "$name" <<< "$before")
        # rt looks at the sources alone. A program that is gone, or isn't the one of the record, is made again once its
        # stamp is gone too
        if [ "$name" != library ] && { ! is_there "$name" || is_altered "$name" "${sums[$name]}"; }; then
            rm -f "$here/target/stamp/$name"
        fi
    done
    for round in 1 2 3 4; do
        # after three proofs rt is only asked whether the third is of the sources as they are
        [ "$round" -lt 4 ] || [ "$settled" = yes ] || break
        if [ "$round" -gt 1 ]; then
            # shellcheck disable=SC2046
            before=$(contents $(sources_of "$@"))
            for name in "$@"; do sums[$name]=$(sum_of "$name" <<< "$before"); done
        fi
        prove_once "$log" "$@" && all_unchanged=yes || all_unchanged=no
        for name in "$@"; do
            if [ "$name" = library ]; then
                # the archive is made once, when all that is in it is proved
                [ "$all_unchanged" = no ] || { load site; link_library "$log"; }
            else
                is_there "$name" || fail "rt says that $name is proved, and there is no target/bin/$name"
            fi
        done
        # shellcheck disable=SC2046
        if [ "$(contents $(sources_of "$@"))" != "$before" ]; then
            echo "farey: the sources were edited while they were proved" >&2
            settled=no
        elif [ "$all_unchanged" = yes ]; then
            for name in "$@"; do
                echo "${sums[$name]} $(made_sum "$name")" > "$here/target/farey/$name" || exit 1
            done
            return
        else
            [ "$settled" = no ] || echo "farey: the sources were edited while they were proved" >&2
            settled=yes
        fi
    done
    fail "the sources don't stay as they are, so there is no answer"
}

# asks rt to prove the things NAME .., and tells how far it is: whether every crate was unchanged. Without a proof it
# ends this script.
prove_once() {
    local log=$1 crates ended crate name names=() title
    shift
    for name in "$@"; do names+=("$(crate_of "$name")"); done
    title=$*
    [ $# -lt 4 ] || title="all that ./farey runs"
    crates=$(plan "$@")
    (cd "$here" && "$(prover)" check "${names[@]}" < /dev/null) 2>&1 | tee "$log" | tell "$title" "$crates"
    ended=("${PIPESTATUS[@]}")
    [ "${ended[0]}" -ne 0 ] || return "${ended[2]}"
    crate=$(sed -nE 's/^rt: ([a-z_]+) NOT PROVED \(.*/\1/p' "$log" | head -n 1)
    [ -z "$crate" ] || fail "the crate $crate is not proved, so there is no answer; the log is $log"
    echo "farey: $title could not be made; the log is $log, and it ends:" >&2
    tail -n 3 "$log" >&2
    exit 1
}

# whether a file of a folder was edited after a stamp was made
is_newer() {
    [ -n "$(find "$2" -name out -prune -o -type f -newer "$1" -print -quit 2> /dev/null)" ]
}

# whether one of these words is one of those
any_of() {
    local each
    for each in $1; do [[ " $2 " != *" $each "* ]] || return 0; done
    return 1
}

# The seconds of each crate's proof, by docs/CHECK-TIMES.md, of those crates on standard input ('LEVEL CRATE') that have
# to be proved: no stamp, or one older than a source, or one that stands on such a crate. Where that page is missing
# there are none.
seconds_left() {
    local level crate stamp seconds below
    local -A again=()
    while read -r level crate; do
        stamp=$here/target/stamp/$crate
        below=$(sed -nE "s/^$crate:(.*)/\1/p" "$here/crates.txt")
        if [ ! -f "$stamp" ] || is_newer "$stamp" "$here/crates/$crate" || any_of "$below" "${!again[*]}"; then
            again[$crate]=yes
            seconds=$(sed -nE "s/^\| $crate \| ([0-9]+) \|.*/\1/p" "$here/docs/CHECK-TIMES.md" 2> /dev/null)
            [ -z "$seconds" ] || echo "$crate $seconds"
        fi
    done
}

# a number of seconds for people
as_time() {
    if [ "$1" -lt 90 ]; then echo "$1 s"; else echo "$((($1 + 30) / 60)) min"; fi
}

# Reads what rt prints, and says which crates are done, which are next and how long it may take. rt proves crates of one
# level at the same time and prints what it has to say of them at the end; so when it has been silent for a second,
# those of its level that it hasn't spoken of are next.
tell() {
    local title=$1 crates=$2 total count=0 unchanged=0 told=-1 line='' piece crate next
    local left start=$SECONDS whole jobs spent rest
    local -A seconds=()
    total=$(wc -l <<< "$crates")
    jobs=${RT_JOBS:-$(nproc)}
    [ "$jobs" -le 4 ] || jobs=4
    whole=0
    while read -r crate spent; do
        seconds[$crate]=$spent
        whole=$((whole + spent))
    done < <(seconds_left <<< "$crates")
    left=$whole
    while :; do
        if IFS= read -r -t 1 piece; then
            line+=$piece
            case $line in
                'rt: '*' proved ('*)
                    crate=${line#rt: }
                    crate=${crate%% *}
                    crates=$(grep -v " $crate\$" <<< "$crates")
                    count=$((count + 1))
                    spent=${seconds[$crate]-0}
                    seconds[$crate]=0
                    left=$((left - spent))
                    case $line in
                        *'(unchanged '*) unchanged=$((unchanged + 1)) whole=$((whole - spent)) ;;
                        *) echo "farey: proved $crate, $count of $total" >&2 ;;
                    esac
                    ;;
            esac
            line=
        elif [ $? -gt 128 ]; then
            line+=$piece
            if [ "$count" -ne "$told" ] && [ -n "$crates" ]; then
                # what is left takes as long for each of the page's seconds as what is done took
                spent=$((SECONDS - start))
                rest=$((left / jobs))
                [ $((whole - left)) -lt 30 ] || rest=$((left * spent / (whole - left)))
                [ "$told" -ge 0 ] ||
                    echo "farey: $title is made of $total crates; those that aren't proved yet are proved now$(
                        [ "$whole" -eq 0 ] || echo ", about $(as_time "$rest")")" >&2
                next=$(awk 'NR == 1 { level = $1 } $1 == level { print $2 }' <<< "$crates" | paste -s -d ' ')
                next="next: $next"
                [ "$rest" -eq 0 ] || next="about $(as_time "$rest") left, $next"
                echo "farey: $count of $total are done, $next" >&2
                told=$count
            fi
        else
            break
        fi
    done
    [ "$unchanged" -eq "$total" ]
}
