# shellcheck shell=sh disable=SC2154
# What the commands of this folder share. A command sets `self` to its own file, links followed, and then reads this one, which takes
# the options off its arguments. The comment at a command's head is its help.
set -u
here=${self%/*}
name=${self##*/}
# What the command runs, target/bin/table_$program: a command that has another sets it.
program=$name

say() {
    printf 'bin/%s: %s\n' "$name" "$1" >&2
}

trouble() {
    say "$1"
    exit 2
}

help() {
    sed -n '1d; /^#/!q; s/^# \{0,1\}//p' "$self"
}

misused() {
    say "$1"
    help >&2
    exit 2
}

# Where standard input is closed, the next thing opened would stand in for it. A folder does: it can't be read either.
{ true 3<&0; } 2>/dev/null || exec </

case ${1-} in
--help)
    help 2>/dev/null || trouble "can't write"
    exit 0
    ;;
--) shift ;;
-?*) misused "there is no option $1" ;;
esac

# Builds the command's program where that is due. Standard input is the table's and standard output the answer's, so it gets neither.
ready() {
    "$here/build" "$program" </dev/null >/dev/null || exit 2
}

shown() { # FILE
    if [ "$1" = - ]; then
        echo 'standard input'
    else
        printf '%s\n' "$1"
    fi
}

# Runs the command's program on a file, `-` being standard input, and writes what it says behind a label.
# Status: 0 accepted, 1 refused, 2 trouble, which is told.
answer() { # FILE LABEL
    # An error of reading ends the program, and says nothing of the file. So another reads the file for it and says whether it could; one byte
    # more than a table may have is as much as the program takes.
    said=$({ { head -c 65536 -- "$1" 2>/dev/null || echo unread >&3; } | "$here/../target/bin/table_$program"; } 3>&1)
    ended=$?
    case $ended:$said in
    0:accepted\ *) status=0 ;;
    0:refused\ *) status=1 ;;
    0:unread*)
        say "can't read $(shown "$1")"
        return 2
        ;;
    *)
        say "the program gave no answer (status $ended)"
        return 2
        ;;
    esac
    printf '%s%s\n' "$2" "$said" 2>/dev/null || trouble "can't write"
    return "$status"
}
