# Completes the words of edsac in bash: commands, options, files by their endings, and the routines of `call`.

# Reads the words before the one to complete: it sets command, and counts in files the words after it that no option takes.
_edsac_read() {
    local word takes=''
    for word in "${COMP_WORDS[@]:1:COMP_CWORD-1}"; do
        case $takes$word in
        yes=) ;;
        yes*) takes='' ;;
        --limit | --resume | --post-mortem | --store) takes=yes ;;
        -*) ;;
        *) if [ -z "$command" ]; then command=$word; else files=$((files + 1)); fi ;;
        esac
    done
}

# Adds what compgen answers.
_edsac_add() {
    mapfile -t -O "${#COMPREPLY[@]}" COMPREPLY < <(compgen "$@" -- "$word")
}

# Adds the files with these endings, and the folders.
_edsac_add_files() {
    local ending
    for ending in "$@"; do
        _edsac_add -f -X "!*$ending"
    done
    _edsac_add -d
    compopt -o filenames 2>/dev/null
}

# Adds what may come after a command.
_edsac_add_words() {
    case $command:$files in
    :*) _edsac_add -W 'run punch listing tape check-tape trace parts step tape1 check-tape1 call library demo help' ;;
    run:0 | punch:0 | listing:0) _edsac_add_files .edsac ;;
    tape:0 | check-tape:0 | trace:0 | parts:0) _edsac_add_files .tape ;;
    tape1:0 | check-tape1:0) _edsac_add_files .tape1 ;;
    step:0) _edsac_add_files '' ;;
    step:1) _edsac_add_files .edsac .tape ;;
    call:0) _edsac_add -W 'newline print read divide root check' ;;
    esac
}

# Adds the options of a command.
_edsac_add_options() {
    case $command in
    '') _edsac_add -W '--limit --resume --post-mortem --store --help --version' ;;
    run | tape) _edsac_add -W '--limit --resume --post-mortem --store' ;;
    trace) _edsac_add -W '--limit --resume --store' ;;
    tape1) _edsac_add -W '--limit --resume' ;;
    parts | step | call | demo) _edsac_add -W '--limit' ;;
    punch | listing | check-tape) _edsac_add -W '--store' ;;
    esac
}

_edsac() {
    local word=${COMP_WORDS[COMP_CWORD]} before=${COMP_WORDS[COMP_CWORD - 1]} command='' files=0
    if [ "$word" = = ]; then
        word=''
    elif [ "$before" = = ]; then
        before=${COMP_WORDS[COMP_CWORD - 2]}
    fi
    COMPREPLY=()
    _edsac_read
    case $before:$word in
    --store:*) _edsac_add -W '512 1024' ;;
    --limit:* | --resume:* | --post-mortem:*) ;;
    *:-*) _edsac_add_options ;;
    *) _edsac_add_words ;;
    esac
}

complete -F _edsac edsac
