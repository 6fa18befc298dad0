# Completes the words of edsac in fish: commands, options, files by their endings, and the routines of `call`.

# The words before the one to complete that no option takes: the command, and what comes after it.
function __edsac_words
    set -l takes no
    for word in (commandline -opc)[2..]
        if test $takes = yes
            set takes no
        else if contains -- $word --limit --resume --post-mortem --store
            set takes yes
        else if not string match -q -- '-*' $word
            echo $word
        end
    end
end

# Whether no command is there yet.
function __edsac_is_first
    test (count (__edsac_words)) -eq 0
end

# Whether so many words are there, the command among them, which is one of these.
function __edsac_is_at
    set -l words (__edsac_words)
    test (count $words) -eq $argv[1]; and contains -- $words[1] $argv[2..]
end

# Whether the command is one of these, or not there yet.
function __edsac_may_be
    set -l words (__edsac_words)
    test (count $words) -eq 0; or contains -- $words[1] $argv
end

# The files with these endings, and the folders.
function __edsac_files
    set -l ends (string join '|' (string escape --style=regex -- $argv) /)
    __fish_complete_path (commandline -ct) | string replace -r '\t.*' '' | string match -r ".*(?:$ends)\$"
end

complete -c edsac -f
complete -c edsac -n __edsac_is_first -a run -d 'runs a source'
complete -c edsac -n __edsac_is_first -a punch -d 'writes the tape of a source'
complete -c edsac -n __edsac_is_first -a listing -d "writes every location of a source's program"
complete -c edsac -n __edsac_is_first -a tape -d 'runs the text of a tape'
complete -c edsac -n __edsac_is_first -a check-tape -d 'reports where a tape begins, or what is wrong with it'
complete -c edsac -n __edsac_is_first -a trace -d 'writes the letter of each order that a run obeys'
complete -c edsac -n __edsac_is_first -a parts -d 'goes through a tape whose programs go back to the loader'
complete -c edsac -n __edsac_is_first -a step -d 'goes through a run by a script'
complete -c edsac -n __edsac_is_first -a tape1 -d 'runs a tape of May 1949'
complete -c edsac -n __edsac_is_first -a check-tape1 -d 'checks a tape of May 1949'
complete -c edsac -n __edsac_is_first -a call -d 'runs a routine of the library'
complete -c edsac -n __edsac_is_first -a library -d 'lists the routines'
complete -c edsac -n __edsac_is_first -a demo -d 'runs a large program'
complete -c edsac -n __edsac_is_first -a help -d 'shows all commands, options and statuses'

complete -c edsac -n '__edsac_may_be run tape trace parts step tape1 call demo' -l limit -x -d 'end after this many orders'
complete -c edsac -n '__edsac_may_be run tape trace tape1' -l resume -x -d 'continue after this many stops'
complete -c edsac -n '__edsac_may_be run tape' -l post-mortem -x -d 'print words when the run has ended: FROM,COUNT'
complete -c edsac -n '__edsac_may_be run punch listing tape check-tape trace' -l store -x -a '512 1024' -d 'locations of the store'
complete -c edsac -n __edsac_is_first -s h -l help -d 'show all commands'
complete -c edsac -n __edsac_is_first -l version -d 'show the version'

complete -c edsac -n '__edsac_is_at 1 run punch listing' -a '(__edsac_files .edsac)'
complete -c edsac -n '__edsac_is_at 1 tape check-tape trace parts' -a '(__edsac_files .tape)'
complete -c edsac -n '__edsac_is_at 1 tape1 check-tape1' -a '(__edsac_files .tape1)'
complete -c edsac -n '__edsac_is_at 1 step' -F
complete -c edsac -n '__edsac_is_at 2 step' -a '(__edsac_files .edsac .tape)'
complete -c edsac -n '__edsac_is_at 1 call' -a 'newline print read divide root check'
