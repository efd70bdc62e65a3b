# Completes the arguments of life, life-wait and life-tools in bash.

_life_words() {
    local word=$1 at=$2
    case $at,$word in
        0,*) COMPREPLY=($(compgen -W "run state checkpoint value project generate load" -- "$current")) ;;
        *,run) COMPREPLY=($(compgen -W "--basis" -- "$current")) ;;
        *,value) COMPREPLY=($(compgen -W "--at --workers --basis --mean --deficiency" -- "$current")) ;;
        *,project) COMPREPLY=($(compgen -W "--workers --basis" -- "$current")) ;;
    esac
}

_life() {
    local current=${COMP_WORDS[COMP_CWORD]} first=1
    COMPREPLY=()
    case ${COMP_WORDS[0]##*/} in
        life-wait) first=2 ;;
        life-tools)
            [ "$COMP_CWORD" -gt 1 ] || COMPREPLY=($(compgen -W "@ENTRIES@" -- "$current"))
            return
            ;;
    esac
    case ${COMP_WORDS[COMP_CWORD - 1]} in
        --basis) return ;;
    esac
    [ "$COMP_CWORD" -lt "$first" ] || _life_words "${COMP_WORDS[first]}" $((COMP_CWORD - first))
}

# an argument that none of these complete may be the name of a file
complete -o default -F _life life life-wait life-tools
