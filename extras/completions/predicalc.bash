# Completion of predicalc's words for bash: source this file, or lay it as `predicalc` into
# ~/.local/share/bash-completion/completions. Names of files may have blanks.

# The mode among the words before the one that is completed; `--budget K` may stand before it.
_predicalc_mode() {
    local i
    for ((i = 1; i < COMP_CWORD; i++)); do
        case ${COMP_WORDS[i]} in
        replay | edit | check | merge | posts | demo) echo "${COMP_WORDS[i]} $i" && return ;;
        esac
    done
}

# Files of one ending and folders, or all files where there is no ending.
_predicalc_files() {
    local ending=$1 word=$2
    compopt -o filenames 2>/dev/null
    mapfile -t COMPREPLY < <(
        if [ -n "$ending" ]; then
            compgen -f -X "!*$ending" -- "$word"
            compgen -d -- "$word"
        else
            compgen -f -- "$word"
        fi | sort -u
    )
}

_predicalc() {
    local word=${COMP_WORDS[COMP_CWORD]} before=${COMP_WORDS[COMP_CWORD - 1]} mode at budget='' words=''
    COMPREPLY=()
    read -r mode at < <(_predicalc_mode)
    case " ${COMP_WORDS[*]:0:COMP_CWORD} " in *' --budget'*) ;; *) budget=--budget ;; esac
    [ "$before" = --budget ] && return
    if [ -z "$mode" ]; then
        words='replay edit check merge posts demo'
        [[ $COMP_CWORD -eq 1 && ${COMP_WORDS[0]} == */predicalc ]] && words="try $words"
    elif [ "$COMP_CWORD" -eq $((at + 1)) ] && [[ $word != -* ]]; then
        case $mode in
        edit | check | posts) _predicalc_files .sheet "$word" && return ;;
        merge) _predicalc_files '' "$word" && return ;;
        esac
    fi
    case $mode in check | merge) budget='' ;; esac
    mapfile -t COMPREPLY < <(compgen -W "$words $budget" -- "$word")
}

complete -F _predicalc predicalc ./predicalc
