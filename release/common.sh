# shellcheck shell=sh
# What ./abides, ./prove, ./test and the scripts beside this file share. Each reads it once $home is the top of the repository
# and $name is what the script calls itself. A stamp is a file of two lines beside a program: the program's own sum and that
# of its sources.
# shellcheck disable=SC2034,SC2154

crate=abides_main
out=$home/crates/$crate/out
program=$out/$crate
released_name=abides_release
unpacked=$out/$released_name
unpacked_name=abides-x86_64-linux
packed_name=$unpacked_name.xz
packed=$home/release/$packed_name
# How the C library's allocator gets memory for the program: in huge pages, a mebibyte more each time than it needs, and each
# large piece by itself. A long run touches all that it asks for, and is faster by it (docs/PERFORMANCE.md).
tunables=glibc.malloc.hugetlb=1:glibc.malloc.mmap_threshold=131072:glibc.malloc.top_pad=1048576

# Prints one line on standard error, behind the name of the script, where that can be written.
tell() {
    { printf '%s: %s\n' "$name" "$1" >&3; } 3>&2 2>/dev/null || :
}

# The same, and ends with status 1, which the program never gives.
fail() {
    tell "$1"
    exit 1
}

need() {
    command -v "$1" >/dev/null 2>&1 || fail "there is no $1 on the path"
}

# Opens what the caller closed of standard input, output and error, so that no file of the script's comes into its place. What
# was closed stands in $closings, for the program behind the script.
open_streams() {
    closings=
    { { :; } 3<&0; } 2>/dev/null || { closings="$closings <&-" && exec </dev/null; }
    { { :; } 3>&1; } 2>/dev/null || { closings="$closings >&-" && exec >/dev/null; }
    { :; } 3>&2 || { closings="$closings 2>&-" && exec 2>/dev/null; }
}

# The folder of this user's cache, or nothing where none is known.
cache_folder() {
    cache=${XDG_CACHE_HOME:-${HOME:+$HOME/.cache}}
    case $cache in
    /*) printf '%s\n' "$cache/biqsolur" ;;
    esac
}

sum_of() {
    [ -f "$1" ] && [ -r "$1" ] && sha256sum <"$1" | cut -c 1-64
}

# The words of git, whatever a hook that calls this has set.
plain_git() {
    (
        unset GIT_DIR GIT_WORK_TREE GIT_INDEX_FILE GIT_PREFIX GIT_COMMON_DIR GIT_OBJECT_DIRECTORY GIT_NAMESPACE \
            GIT_ALTERNATE_OBJECT_DIRECTORIES GIT_CONFIG GIT_CONFIG_PARAMETERS GIT_CONFIG_COUNT GIT_GRAFT_FILE \
            GIT_IMPLICIT_WORK_TREE GIT_INTERNAL_SUPER_PREFIX GIT_NO_REPLACE_OBJECTS GIT_REPLACE_REF_BASE \
            GIT_SHALLOW_FILE GIT_LITERAL_PATHSPECS GIT_GLOB_PATHSPECS GIT_NOGLOB_PATHSPECS GIT_ICASE_PATHSPECS
        exec git "$@"
    )
}

# The names of crates.txt, HANDLES and all files below crates/ that git tracks, each with a zero byte behind it. In a tree
# without git these are all files below crates/ but those of the folders out/.
source_names() {
    printf 'HANDLES\0crates.txt\0'
    if [ -e .git ] && plain_git rev-parse --is-inside-work-tree >/dev/null 2>&1; then
        plain_git ls-files -z -- crates
    else
        find crates -name out -prune -o -type f -print0
    fi
}

# One sum over the names and contents of the sources, as they lie in the working tree; fails where it can't be made.
sources_sum() {
    lines=$(cd "$home" && source_names | LC_ALL=C sort -zu | xargs -0 sha256sum 2>/dev/null)
    case $lines in
    *' crates.txt'*) printf '%s\n' "$lines" | sha256sum | cut -c 1-64 ;;
    *) return 1 ;;
    esac
}

# Whether a program can be put into the folder $1, which is made where it isn't there.
has_room() {
    mkdir -p "$1" 2>/dev/null && [ -w "$1" ]
}

need_room() {
    has_room "$out" || fail "no leave to write in $out"
}

# Writes the stamp of the program $1, which is of the sources with the sum $2. Where they were changed before the stamp was
# written, it gets an old time, so that is_current makes their sum.
write_stamp() {
    printf 'program %s\nsources %s\n' "$(sum_of "$1")" "$2" >"$1.sum.$$" && mv -f "$1.sum.$$" "$1.sum" || return 1
    [ "$(sources_sum)" = "$2" ] || touch -t 200001010000 "$1.sum"
}

stamped() {
    sed -n "s/^$2 //p" "$1.sum"
}

# Whether nothing was put, changed or removed below crates/ since the stamp of $1 was written. -cnewer also sees a file that
# came with an older time. A stamp elsewhere than in this tree says nothing of when the tree came.
is_untouched() {
    case $1 in
    "$out"/*) ;;
    *) return 1 ;;
    esac
    changed=$(find "$home/crates.txt" "$home/HANDLES" "$home/crates" -name out -prune -o -cnewer "$1.sum" -print 2>/dev/null) &&
        [ -z "$changed" ]
}

# Whether the program $1 carries its stamp, and is of the sources as they are now.
is_current() {
    [ -f "$1" ] && [ -x "$1" ] && [ -r "$1.sum" ] && [ "$(sum_of "$1")" = "$(stamped "$1" program)" ] || return 1
    is_untouched "$1" || { now=$(sources_sum) && [ "$now" = "$(stamped "$1" sources)" ]; }
}

# The sum that release/SHA256SUMS has for the file name $1.
listed() {
    sed -n "s/^\([0-9a-f]\{64\}\)  $1\$/\1/p" "$home/release/SHA256SUMS" 2>/dev/null
}

# Whether there is a release, and is of the sources with the sum $1.
is_release_of() {
    [ -n "$1" ] && [ "$(cat "$home/release/SOURCES" 2>/dev/null)" = "$1" ]
}

# xz, whatever is set for the user's own calls of it.
plain_xz() {
    XZ_DEFAULTS='' XZ_OPT='' xz "$@"
}

# A member of an ar archive: its name, and the file whose bytes it has.
archive_member() {
    bytes=$(wc -c <"$2") && printf '%-16s%-12s%-6s%-6s%-8s%-10s`\n' "$1" 0 0 0 100644 "$((bytes))" && cat "$2" || return 1
    [ "$((bytes % 2))" = 0 ] || printf '\n'
}

# Unpacks the release by Debian's dpkg-deb, which has xz built in: as the data of a package that is made beside the file $1.
unpack_by_dpkg() {
    { printf '2.0\n' >"$1.version" && tar -czf "$1.control" -T /dev/null; } || return 1
    {
        printf '!<arch>\n' && archive_member debian-binary "$1.version" &&
            archive_member control.tar.gz "$1.control" && archive_member data.tar.xz "$packed"
    } >"$1.deb" && dpkg-deb --fsys-tarfile "$1.deb"
    unpacking=$?
    rm -f "$1.version" "$1.control" "$1.deb"
    return "$unpacking"
}

# Whether there is something that unpacks.
can_unpack() {
    command -v xz >/dev/null 2>&1 || command -v dpkg-deb >/dev/null 2>&1
}

# Writes the unpacked release to the file $1.
unpack_to() {
    if command -v xz >/dev/null 2>&1; then
        plain_xz -qdc "$packed" >"$1"
    else
        # shellcheck disable=SC2094 # the name alone is used, for files beside it
        unpack_by_dpkg "$1" >"$1"
    fi
}

# Says what is wrong with the packed program, or nothing where it is whole.
packed_fault() {
    if [ ! -r "$packed" ]; then
        echo "release/$packed_name is missing"
    elif [ "$(sum_of "$packed")" != "$(listed "$packed_name")" ]; then
        why=
        ! command -v xz >/dev/null 2>&1 || why=$(plain_xz -qt "$packed" 2>&1) || why=${why##*: }
        echo "release/$packed_name is damaged: ${why:-its sum is not the one in release/SHA256SUMS}"
    fi
}

# Becomes the program, the first word, with those behind it. What the caller says to the allocator stands.
start() {
    export GLIBC_TUNABLES="${GLIBC_TUNABLES-$tunables}"
    eval "exec \"\$@\" $closings"
}

# The first python3 that has the modules named by these words.
python_with() {
    kept=$(cache_folder)
    modules=$(printf '%s, ' "$@")
    for python in "${PYTHON:-python3}" /usr/bin/python3 ${kept:+"$kept/python/bin/python3"}; do
        "$python" -c "import ${modules%, }" >/dev/null 2>&1 && printf '%s\n' "$python" && return
    done
    return 1
}
