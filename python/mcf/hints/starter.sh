# What both starters share, that of the repository and that of a release. To be read by sh with `here` set to the folder that has
# python/, docs/ and VERSION.

# Tells the version, and the commit that it was built of, which is in a file of a release, and asked of git in a checkout.
tell_version() {
    commit=
    if [ -f "$here/python/mcf/COMMIT" ]; then
        commit=$(cat "$here/python/mcf/COMMIT")
    elif [ -e "$here/.git" ]; then
        # (`describe --dirty` would lock the index, and leave the lock there where it is killed)
        commit=$(env -u GIT_DIR -u GIT_WORK_TREE -u GIT_INDEX_FILE \
            git --no-optional-locks -C "$here" status --porcelain=v2 --branch --untracked-files=no 2>/dev/null |
            sed -n 's/^# branch\.oid \([0-9a-f]\{8\}\).*/\1/p; /^[12u] /{s/.*/-dirty/p;q;}' | tr -d '\n')
    fi
    printf '%s %s (%s)\n' "${name:-mcf}" "$(cat "$here/VERSION")" "${commit:-unknown}"
}

# Answers the words for help and version, which the program itself does not know, and ends; returns where the words are others.
answer_help() {
    case $#/${1-} in
        1/--version)
            tell_version
            exit
            ;;
        1/--help | 1/-h | 1/help) page=mcf ;;
        2/help) page=$2 ;;
        2/*)
            case $2 in
                --help | -h) page=$1 ;;
                *) return ;;
            esac
            ;;
        *) return ;;
    esac
    case $page in
        '' | */* | .*) return ;;
    esac
    if [ -f "$here/python/mcf/hints/help/$page.txt" ]; then
        # (the program with wide limits has other numbers)
        [ "${name:-mcf}" = mcf-wide ] && exec sed -f "$here/python/mcf/hints/wide.sed" "$here/python/mcf/hints/help/$page.txt"
        exec cat "$here/python/mcf/hints/help/$page.txt"
    fi
}

# Whether hints are wanted, and can be given with the program's files, output and end left as they are. Descriptor 9 has to be free.
wants_hints() {
    case ${MCF_HINTS-} in
        1) ;;
        '') [ -t 2 ] || return 1 ;;
        *) return 1 ;;
    esac
    [ -x /usr/bin/python3 ] && [ -e /proc/$$/fd/0 ] && [ -e /proc/$$/fd/1 ] && [ ! -e /proc/$$/fd/9 ] &&
        setpriv --pdeathsig KILL true 2>/dev/null
}

# Runs the program $program with the words given. Where hints are wanted it is a child with the caller's own files, which ends with
# this shell where that is killed; and this shell ends as the program did.
run_program() {
    if ! wants_hints; then
        exec "$program" "$@"
    fi
    # (sh gives a background child another standard input, unless it has one from elsewhere)
    exec 9<&0
    setpriv --pdeathsig KILL "$program" "$@" <&9 9<&- &
    exec 9<&-
    wait $! 2>/dev/null
    status=$?
    if [ "$status" -gt 128 ]; then
        ulimit -c 0
        kill -"$((status - 128))" $$
    fi
    case $status in
        1 | 2 | 3 | 4 | 5 | 7)
            { hint=$(/usr/bin/python3 -I -S -B -X utf8 "$here/python/mcf/hints" "$status" "$program" "$@" 2>/dev/null); } 9>&1
            [ -z "$hint" ] || printf '%s\n' "$hint" >&2
            ;;
    esac
    exit "$status"
}
