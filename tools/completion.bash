# Completion of the words of `flow` and `draw` for bash: `source tools/completion.bash`, or copy this file to a folder of
# which bash-completion knows, as ~/.local/share/bash-completion/completions/flow.

# The network file that stands before the word, if one does.
_flow_net() {
    local place word value=
    for ((place = 1; place < COMP_CWORD; place++)); do
        word=${COMP_WORDS[place]}
        case $value$word in
        value=) ;;
        value*) value= ;;
        --journal | --make | --replay | --report | --tapes | --workers) value=value ;;
        -?*) ;;
        *) echo "$word" && return ;;
        esac
    done
}

# The words of the network of a file, as the built program `flow` lists them: the script would prove it first.
_flow_texts() {
    local program
    program=$(type -P -- "${COMP_WORDS[0]}") && [ -f "$1" ] || return
    # For `draw` that is the one beside it.
    if [ "${program##*/}" = draw ]; then program=${program%draw}flow; fi
    [ -x "$program" ] || return
    if [ "$(head -c 2 -- "$program")" = '#!' ]; then
        program=$(dirname -- "$(readlink -f -- "$program")")/crates/flow/out/flow
    fi
    [ ! -x "$program" ] || "$program" --texts "$1" 2>/dev/null | sed 's/[ :].*//;s/$/=/'
}

_flow_words() {
    local word=${COMP_WORDS[COMP_CWORD]} before=${COMP_WORDS[COMP_CWORD - 1]} options texts=
    case ${COMP_WORDS[0]##*/} in
    draw)
        options='--dot --fold --help --journal'
        texts=$(_flow_texts "$(_flow_net)")
        ;;
    *)
        options='--brief --check --determinate --help --journal --kinds --make --progress --quiet --replay --report --tapes --texts --version --workers'
        texts=$(_flow_texts "$(_flow_net)")
        ;;
    esac
    COMPREPLY=()
    case $before in
    --workers) mapfile -t COMPREPLY < <(compgen -W "$(seq 0 32)" -- "$word") && return ;;
    --make) mapfile -t COMPREPLY < <(compgen -W "$(seq 100)" -- "$word") && return ;;
    =) texts= ;;
    esac
    case $word in
    =) word= texts= ;;
    -*) mapfile -t COMPREPLY < <(compgen -W "$options" -- "$word") && return ;;
    esac
    if [ -n "$texts" ]; then
        compopt -o nospace 2>/dev/null
        mapfile -t COMPREPLY < <(compgen -W "$texts" -- "$word")
    else
        compopt -o filenames 2>/dev/null
        mapfile -t COMPREPLY < <(compgen -f -- "$word")
    fi
}
complete -F _flow_words flow ./flow draw ./draw
