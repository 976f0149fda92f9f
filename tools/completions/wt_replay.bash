# Completion of wt_replay for bash: source this file. It asks the program for its options.
_wt_replay() {
    COMPREPLY=($(compgen -W "$("$1" --help | grep -o -e '--[a-z-]*')" -- "${COMP_WORDS[COMP_CWORD]}"))
}
complete -F _wt_replay wt_replay
