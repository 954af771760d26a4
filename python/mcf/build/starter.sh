# What the starters of the repository share: the program is built first where it is missing or older than its sources, and everything is
# proved before it is built. To be read by sh with `here` set to the top of the repository, `name` to the program's name, `copies` to the
# word by which the crates that it is built of are copied (python3 python/mcf/build), and `built` and `kept` to the files where the program
# is put when it is built and where a copy of it stays; the two may be one.

# The sources that are newer than a file.
newer() {
    find "$here/crates" -path '*/out' -prune -o \( -name '*.rt' -o -name '*.antt' \) -newer "$1" -print 2>/dev/null
}

# Whether a program is there, and no source is newer.
is_fresh() {
    [ -x "$1" ] && [ -z "$(newer "$1" | head -n 1)" ]
}

# Copies the program that was built, with its time.
keep() {
    [ "$built" = "$kept" ] || { mkdir -p "${kept%/*}" && cp -p "$built" "$kept.$$" && mv -f "$kept.$$" "$kept"; }
}

# Ends in one line, where the program is not to be built, or could not be kept: no proof is begun for nothing.
need_place() {
    state="was not built yet"
    [ ! -e "$built" ] || state="is older than its sources"
    if [ "${MCF_BUILD-}" = 0 ]; then
        echo "$name: the program $state, and is not built here, since MCF_BUILD is 0: run $here/$name without it" >&2
        exit 7
    fi
    folder=${built%/*}
    mkdir -p "$folder" 2>/dev/null
    if [ ! -w "$folder" ] || [ ! -x "$folder" ] || { [ -d "$built" ] && [ ! -L "$built" ]; }; then
        echo "$name: the program $state, and this user cannot put another one into $folder" >&2
        exit 7
    fi
}

# Tells how far the build is, and copies what rt writes into a file.
tell() {
    python3 -I -S -B "$here/python/mcf/build" "$1" "$here" mcf || cat >>"$1"
}

# In a copy of the crates that the program is built of, rt ci proves them side by side; alone in the repository it would go through
# those that no program needs too.
build() {
    need_place
    if ! command -v rt >/dev/null; then
        echo "$name: the program has to be built, and the toolchain's command rt is not on the path (README.md)" >&2
        exit 7
    fi
    # (what is there was built from other sources, and must not stand for these where they are not proved)
    if ! rm -f "$built" 2>/dev/null; then
        echo "$name: the program $state, and $built cannot be replaced" >&2
        exit 7
    fi
    echo "$name: building the program; every crate is proved first, which takes from 20 minutes to an hour on four processors" >&2
    room=$(mktemp -d) || exit 7
    trap 'rm -rf "$room"; exit 7' HUP INT TERM
    if python3 -I -S -B "$here/python/mcf/build" "$copies" "$here" mcf "$room/mcf" >"$room/log" 2>&1; then
        (cd "$room/mcf" && rt ci) 2>&1 </dev/null | tell "$room/log"
    fi
    if ! tail -n 1 "$room/log" | grep -q '^[0-9]* passed, 0 failed$' || [ ! -x "$room/mcf/crates/mcf/out/mcf" ]; then
        cat "$room/log" >&2
        rm -rf "$room"
        echo "$name: the program was not built" >&2
        exit 7
    fi
    mv "$room/mcf/crates/mcf/out/mcf" "$built"
    kept_it=$?
    rm -rf "$room"
    trap - HUP INT TERM
    [ "$kept_it" -eq 0 ] || exit 7
    touch "$built"
}

# Leaves the path of the program in `program`, built first where it has to be.
find_program() {
    program=$kept
    if ! is_fresh "$kept"; then
        is_fresh "$built" || build
        keep 2>/dev/null || program=$built
    fi
}
