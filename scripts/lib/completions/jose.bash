# Completion of jose(1) and its tools for bash: words, the letters that are left, and the values of letters.

# _jose_files: offers files.
_jose_files() {
    compopt -o filenames 2>/dev/null
    mapfile -t COMPREPLY < <(compgen -f -- "${COMP_WORDS[COMP_CWORD]}")
}

# _jose_letters FIRST LETTERS VALUES [WORDS]: offers the words and the letters that are left, or the value of a letter. The word of the number
# FIRST is the first that can be a letter. A colon follows a letter with a value: -a takes one of VALUES, -p a number, and the others a file.
_jose_letters() {
    local current=${COMP_WORDS[COMP_CWORD]} word letter rest awaiting='' i
    local left=" $2 "
    for ((i = $1; i < COMP_CWORD; i++)); do
        word=${COMP_WORDS[i]}
        if [ -n "$awaiting" ]; then
            # readline makes a word of its own of an equals sign.
            [ "$word" = = ] || awaiting=
            continue
        fi
        [[ $word == -?* ]] || continue
        rest=${word#-}
        while [ -n "$rest" ]; do
            letter=${rest:0:1}
            rest=${rest:1}
            left=${left/ $letter / }
            if [[ " $2 " == *" $letter: "* ]]; then
                left=${left/ $letter: / }
                [ -n "$rest" ] || awaiting=$letter
                break
            fi
        done
    done
    rest=$current
    word=
    if [ -z "$awaiting" ] && [[ $current == -??* && $2 == *"${current:1:1}:"* ]]; then
        awaiting=${current:1:1}
        word=-$awaiting
        rest=${current:2}
    fi
    if [ -z "$awaiting" ]; then
        local names=${4-}
        for letter in $left; do
            names+=" -${letter%:}"
        done
        mapfile -t COMPREPLY < <(compgen -W "$names" -- "$current")
    elif [ "$awaiting" = a ]; then
        mapfile -t COMPREPLY < <(compgen -P "$word" -W "$3" -- "$rest")
    elif [ "$awaiting" != p ]; then
        compopt -o filenames 2>/dev/null
        mapfile -t COMPREPLY < <(compgen -P "$word" -f -- "$rest")
    fi
}

_jose() {
    local current=${COMP_WORDS[COMP_CWORD]} letters=''
    COMPREPLY=()
    if [ "$COMP_CWORD" = 1 ]; then
        mapfile -t COMPREPLY < <(compgen -W '@NOUNS@' -- "$current")
        return
    fi
    if [ "$COMP_CWORD" = 2 ]; then
        case ${COMP_WORDS[1]} in
            @VERBS@
        esac
        mapfile -t COMPREPLY < <(compgen -W "$letters" -- "$current")
        return
    fi
    # The letters of a command; a colon follows one that takes a value.
    case "${COMP_WORDS[1]} ${COMP_WORDS[2]}" in
        @LETTERS@
        *) return ;;
    esac
    _jose_letters 3 "$letters" '@HASHES@'
}

# After the word `command` the words are those of jose.
_jose_look() {
    COMPREPLY=()
    if [ "$COMP_CWORD" -gt 1 ] && [ "${COMP_WORDS[1]}" = command ]; then
        local -a words=(jose "${COMP_WORDS[@]:2}")
        local COMP_CWORD=$((COMP_CWORD - 1)) COMP_WORDS=("${words[@]}")
        _jose
        return
    fi
    _jose_files
    if [ "$COMP_CWORD" = 1 ] && [[ "command" == "${COMP_WORDS[1]}"* ]]; then
        COMPREPLY+=(command)
    fi
}

_jose_password() {
    local i
    COMPREPLY=()
    for ((i = 1; i < COMP_CWORD; i++)); do
        case ${COMP_WORDS[i]} in
            @PASSWORD@
        esac
    done
    _jose_letters 1 '@PASSWORD_LETTERS@' '@PASSWORD_ALGORITHMS@' 'enc dec'
}

_jose_set() {
    local current=${COMP_WORDS[COMP_CWORD]}
    COMPREPLY=()
    if [ "$COMP_CWORD" = 1 ]; then
        mapfile -t COMPREPLY < <(compgen -W '@SET_VERBS@' -- "$current")
    elif [ "${COMP_WORDS[1]} $COMP_CWORD" = 'join 2' ] && [[ $current == -* ]]; then
        COMPREPLY=(-o)
    elif [ "${COMP_WORDS[1]}" = remove ] && [ "$COMP_CWORD" -gt 2 ]; then
        # The thumbprints of the set.
        if [ -f "${COMP_WORDS[2]}" ]; then
            mapfile -t COMPREPLY < <(compgen -W "$(jose jwk thp -i "${COMP_WORDS[2]}" 2>/dev/null)" -- "$current")
        fi
    else
        _jose_files
    fi
}

_jose_verify_all() {
    COMPREPLY=()
    case $COMP_CWORD in
        1) ;;
        2) _jose_files ;;
        *) _jose_letters 3 '@VERIFY_ALL@' '' ;;
    esac
}

complete -F _jose jose
complete -F _jose_look jose-look
complete -F _jose_password jose-password
complete -F _jose_set jose-set
complete -F _jose_verify_all jose-verify-all
