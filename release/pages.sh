# The pages of the program's help, one after another. Read by release/manual-page and release/completion, which set `program` before.
#
# Each page begins with a line of a form feed and its name: overview, com, disk, disk put, status and so on. Which commands there are says the
# list under "Commands:" of the overview, and of a command that has commands itself.

page() {
    printf '\f%s\n' "$1"
    shift
    "$program" "$@" </dev/null || exit
}

# The first words of the list under "Commands:" on standard input.
named() {
    awk '/^$/ { is_list = 0 } is_list && /^  [a-z]/ { print $1 } /^Commands:$/ { is_list = 1 }'
}

pages() {
    overview=$("$program" --help </dev/null) || exit
    page overview --help
    for command in $(printf '%s\n' "$overview" | named); do
        page "$command" "$command" --help
        for below in $("$program" "$command" --help </dev/null | named); do
            page "$command $below" "$command" "$below" --help
        done
    done
    page status help status
}
