# What the scripts in sh take and answer. A script sets `top` to the repository's top and reads this file:
# . "$top/tools/lib/words.sh". Below, SCRIPT is its path from there.

# Prints the comment at a script's head: head_of SCRIPT
head_of() {
    sed -n '2,/^[^#]/s/^# \{0,1\}//p' "$top/$1"
}

# Says what is wrong in a sentence, and ends with status 2: refuse SCRIPT WORDS
refuse() {
    echo "$1: $2; \`$1 --help\` tells what it takes" >&2
    exit 2
}

# Whether a word asks for help.
asks_help() {
    for word in "$@"; do
        case $word in --help | -h) return 0 ;; esac
    done
    return 1
}

# Ends a script, with a sentence, if a command that it needs isn't there: wants SCRIPT COMMAND..
wants() {
    script=$1
    shift
    for tool in "$@"; do
        command -v "$tool" > /dev/null && continue
        [ "$tool" != rt ] || tool="rt: it comes with Rattle's kit (README.md, 'The toolchain')"
        echo "$script: there is no command $tool" >&2
        exit 2
    done
}
