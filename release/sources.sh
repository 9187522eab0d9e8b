# What a program of the release is made from, cpmhost unless another is named. Read by release/build, release/make and release/test, each
# of which sets `here` to the top of the repository before.

# The program's crates, as crates.txt has them, each after those that it stands on.
crates() {
    crates_up_to "${1:-cpmhost}"
}

# The crates that a crate stands on, in the same order.
below() {
    crates_up_to "$1" | sed '$d'
}

crates_up_to() {
    awk -v top="$1" '
        function visit(name, below, count, i) {
            if (name in seen || !(name in uses))
                return
            seen[name] = 1
            count = split(uses[name], below, /[ \t,]+/)
            for (i = 1; i <= count; i++)
                visit(below[i])
            print name
        }
        {
            sub(/#.*/, "")
            split($0, half, ":")
            if (split(half[1], head, " "))
                uses[head[1]] = half[2]
        }
        END { visit(top) }
    ' "$here/crates.txt"
}

# The file and the folders that the program is made from, in one line.
sources() {
    printf 'crates.txt'
    for crate in $(crates "$@"); do
        for part in src specs proofs; do
            [ ! -d "$here/crates/$crate/$part" ] || printf ' crates/%s/%s' "$crate" "$part"
        done
    done
    printf '\n'
}

# The digest of these sources, of their names and bytes.
digest_of() {
    (
        CDPATH="" cd -- "$here" || exit 1
        find "$@" ! -type d -exec sha256sum {} + | LC_ALL=C sort | sha256sum | cut -d ' ' -f 1
    )
}
