# The library, the wheel, an installation, the version. ./farey takes these functions in.

# the version as include/farey.h has it
version() {
    sed -nE 's/^#define FAREY_VERSION_TEXT "([0-9.]+)"$/\1/p' "$here/include/farey.h"
}

say_version() {
    echo "farey $(version)"
    if [ -f "$here/target/farey.kit" ]; then
        echo "proved by $(cat "$here/target/farey.kit")"
    else
        echo "the library hasn't been made here yet (./farey build)"
    fi
}

# Makes the archive of the engine, and of all that is in it the shared library; and beside that what pkg-config reads,
# and the identity of the kit that proved it. A library that is in use is replaced and not written over.
link_library() {
    local log=$1 archive=$here/target/staticlib/libengine.a library=$here/target/libfarey.so
    echo "farey: the library is made of the proved crates, about a minute" >&2
    (cd "$here" && "$(prover)" staticlib engine < /dev/null) >> "$log" 2>&1 ||
        fail "rt could not make the archive; the log is $log"
    cc -shared -o "$library.new" -Wl,-soname,libfarey.so -Wl,-z,defs \
        -Wl,--whole-archive "$archive" -Wl,--no-whole-archive >> "$log" 2>&1 ||
        fail "cc could not make the library; the log is $log"
    rt version < /dev/null > "$here/target/farey.kit" || fail "rt doesn't say which kit it is"
    mv "$library.new" "$library" && write_pc || exit 1
}

# target/farey.pc, with paths from the folder that it lies in, so that the repository can be moved
write_pc() {
    pc_file '${pcfiledir}/..' '${prefix}/target' > "$here/target/farey.pc"
}

# what pkg-config reads: PREFIX and the folder of the library
pc_file() {
    cat <<PC
prefix=$1
includedir=\${prefix}/include
libdir=$2
kit=$(cat "$here/target/farey.kit" 2> /dev/null)

Name: farey
Description: Finite index subgroups of PSL2(Z) by their Farey symbols
Version: $(version)
Cflags: -I\${includedir}
Libs: -L\${libdir} -lfarey
PC
}

# an installation has what was made, and no sources
needs_sources() {
    [ ! -f "$here/installed" ] || fail "this is an installation; $word is for the repository that it was made from"
}

# what each word is made of, as it asks for it
made_of_words() {
    awk -F '|' '/^#/ { next } $3 == "python" { $4 = "library" } $4 != "" { print $4 }' "$cli/words.txt" | sort -u
}

word_build() {
    local all things
    takes 0
    needs_sources
    load proofs
    mapfile -t all < <(all_things)
    if is_fresh "${all[@]}"; then
        echo "farey: all of it is proved and compiled already" >&2
        return
    fi
    make "${all[@]}"
    is_fresh "${all[@]}" || fail "not all of it could be made"
    echo "farey: all of it is proved and compiled, in $(as_time "$SECONDS")" >&2
    # once the files are two seconds old, what was seen of them is kept for each word, so that its first use is quick too
    sleep 2.1
    while read -r things; do
        # shellcheck disable=SC2086
        is_fresh $things
    done < <(made_of_words)
}

word_library() {
    takes 0
    if [ "${passed[*]-}" = --made ]; then
        is_fresh library || fail "target/libfarey.so isn't made of the sources as they are: run ./farey library"
    else
        build library
    fi
    [ -f "$here/installed" ] || [ -f "$here/target/farey.pc" ] || write_pc || exit 1
    readlink -f "$here/target/libfarey.so"
}

word_wheel() {
    takes 0 1
    needs_sources
    command -v python3 > /dev/null || fail "there is no python3 on the PATH, and $word needs it"
    build library
    mkdir -p "${1-.}" 2> /dev/null || fail "${1-.} can't be made"
    python3 -B "$here/python/backend/farey_backend.py" "${1-.}" || fail "the wheel could not be written"
}

# FILE .. to the folder DIR, each in the place of an older one
put() {
    local dir=$1
    shift
    mkdir -p "$dir" && install -p -t "$dir" "$@" || fail "$dir could not be written"
}

# The programs go to DIR/libexec/farey, in the same order of folders as here, with this script: their names are too
# plain for DIR/bin.
word_install() {
    local all home file name things
    takes 0
    needs_sources
    [ -n "$prefix" ] || wrong "install needs --prefix DIR"
    load proofs
    mapfile -t all < <(all_things)
    [[ " ${all[*]} " == *" library "* ]] || fail "nothing is installed without the library"
    is_fresh "${all[@]}" || make "${all[@]}"
    is_fresh "${all[@]}" || fail "not all of it could be made, so nothing is installed"
    mkdir -p "$prefix" 2> /dev/null || fail "$prefix can't be made"
    prefix=$(cd "$prefix" && pwd) || exit 1
    home=$prefix/libexec/farey
    rm -f "$home/installed"
    put "$prefix/include" "$here/include/farey.h"
    put "$prefix/lib" "$here/target/libfarey.so"
    install -p -m 644 "$here/target/staticlib/libengine.a" "$prefix/lib/libfarey.a" || exit 1
    mkdir -p "$prefix/lib/pkgconfig" || exit 1
    pc_file '${pcfiledir}/../..' '${prefix}/lib' > "$prefix/lib/pkgconfig/farey.pc" || exit 1
    put "$home" "$script"
    put "$home/tools/cli" "$cli"/*.sh "$cli"/*.txt "$cli"/*.py
    put "$home/rust/farey" "$sentences"
    put "$home/include" "$here/include/farey.h"
    put "$home/examples" "$here/examples/gamma0-2.txt"
    put "$home/python/farey" "$here/python/farey"/*.py "$here/python/farey/py.typed"
    put "$home/target" "$here/target/farey.kit"
    for name in "${all[@]}"; do
        [ "$name" = library ] || put "$home/target/bin" "$here/target/bin/$name"
    done
    ln -sfn ../../../lib/libfarey.so "$home/target/libfarey.so" || exit 1
    things=$(cd "$home" && find target ! -type d | LC_ALL=C sort) || exit 1
    # shellcheck disable=SC2086
    (cd "$home" && sha256sum $things > installed) || exit 1
    mkdir -p "$prefix/bin" && ln -sfn ../libexec/farey/farey "$prefix/bin/farey" || exit 1
    echo "$prefix/bin/farey"
}

# whether the things NAME .. of an installation are as they were put there
is_installed() {
    local name
    for name in "$@"; do
        if [ "$name" = library ]; then name=target/libfarey.so; else name=target/bin/$name; fi
        (cd "$here" && awk -v name="$name" '$2 == name' installed | sha256sum -c --status 2> /dev/null) ||
            fail "$here/$name isn't the one that was installed: run ./farey install once more"
    done
}
