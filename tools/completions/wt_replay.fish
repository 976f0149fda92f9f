# Completion of wt_replay for fish: put this file into ~/.config/fish/completions. It asks the program for its options.
complete -c wt_replay -f
for line in (wt_replay --help | string match -r -- '--[a-z-]+ .*')
    set -l words (string split -m 1 -n -- ' ' (string replace -r -- '<n> +' '' $line))
    complete -c wt_replay -l (string sub -s 3 -- $words[1]) -d (string trim -- $words[2])
end
