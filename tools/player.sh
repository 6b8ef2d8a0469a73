# How the player is called: sourced by bin/play, and the front of the passign-play that bin/install writes. POSIX sh.

# Ends with the usage, or with what is wrong with a call: NAME and its arguments, at most one, a file that can be read.
see_to_input() {
    name=$1
    shift
    case $#${1-} in
    1-h | 1--help) echo "usage: $name FILE, or $name < FILE: plays a session file and prints its rows"; exit 0 ;;
    0 | 1[!-]*) ;;
    *) echo "usage: $name FILE, or $name < FILE" >&2; exit 2 ;;
    esac
    wrong=
    if [ $# -eq 0 ]; then
        if [ -t 0 ]; then
            echo "usage: $name FILE, or $name < FILE" >&2
            exit 2
        elif [ ! -e /dev/fd/0 ]; then
            wrong='standard input: it is closed'
        elif [ -d /dev/fd/0 ]; then
            wrong='standard input: it is a folder'
        fi
    elif [ ! -e "$1" ]; then
        wrong="'$1': there is no such file"
    elif [ -d "$1" ]; then
        wrong="'$1': it is a folder"
    elif [ ! -r "$1" ]; then
        wrong="'$1': it may not be read"
    fi
    [ -z "$wrong" ] || { echo "$name: cannot read $wrong; give the path of a session file" >&2; exit 2; }
}

# Plays FILE, or standard input: NAME, the program, and the file if there is one. The program does not tell whether its rows were written, so another writes
# them behind it.
play_input() {
    name=$1 program=$2
    shift 2
    [ $# -eq 0 ] || exec < "$1"
    [ -e /dev/fd/1 ] || { echo "$name: cannot write the rows: standard output is closed" >&2; exit 2; }
    exec 3>&1
    ended=$({ { "$program" 3>&-; echo "player $?" >&4; } | cat >&3 || echo "rows $?" >&4; } 4>&1)
    exec 3>&-
    case $ended in
    'player 0' | *'rows 141'*) ;; # a reader that has seen enough is no fault
    *rows*) echo "$name: cannot write the rows: see to standard output" >&2; exit 2 ;;
    *) echo "$name: the player broke off (${ended#player }): see that there are 320 KiB of stack" >&2; exit 2 ;;
    esac
}
