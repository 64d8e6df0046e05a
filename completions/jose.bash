# Completion of jose(1) and its tools for bash: words, the letters that are left, and the values of letters.

# _jose_files: offers files.
_jose_files() {
    compopt -o filenames 2>/dev/null
    mapfile -t COMPREPLY < <(compgen -f -- "${COMP_WORDS[COMP_CWORD]}")
}

# _jose_letters FIRST LETTERS VALUES [WORDS]: offers the words and the letters that are left, or the value of a letter. The word of the number
# FIRST is the first that can be a letter. A colon follows a letter with a value: -a takes one of VALUES, -p a number, and the others a file.
_jose_letters() {
    local current=${COMP_WORDS[COMP_CWORD]} word letter rest awaiting='' i
    local left=" $2 "
    for ((i = $1; i < COMP_CWORD; i++)); do
        word=${COMP_WORDS[i]}
        if [ -n "$awaiting" ]; then
            # readline makes a word of its own of an equals sign.
            [ "$word" = = ] || awaiting=
            continue
        fi
        [[ $word == -?* ]] || continue
        rest=${word#-}
        while [ -n "$rest" ]; do
            letter=${rest:0:1}
            rest=${rest:1}
            left=${left/ $letter / }
            if [[ " $2 " == *" $letter: "* ]]; then
                left=${left/ $letter: / }
                [ -n "$rest" ] || awaiting=$letter
                break
            fi
        done
    done
    rest=$current
    word=
    if [ -z "$awaiting" ] && [[ $current == -??* && $2 == *"${current:1:1}:"* ]]; then
        awaiting=${current:1:1}
        word=-$awaiting
        rest=${current:2}
    fi
    if [ -z "$awaiting" ]; then
        local names=${4-}
        for letter in $left; do
            names+=" -${letter%:}"
        done
        mapfile -t COMPREPLY < <(compgen -W "$names" -- "$current")
    elif [ "$awaiting" = a ]; then
        mapfile -t COMPREPLY < <(compgen -P "$word" -W "$3" -- "$rest")
    elif [ "$awaiting" != p ]; then
        compopt -o filenames 2>/dev/null
        mapfile -t COMPREPLY < <(compgen -P "$word" -f -- "$rest")
    fi
}

_jose() {
    local current=${COMP_WORDS[COMP_CWORD]} letters=''
    COMPREPLY=()
    if [ "$COMP_CWORD" = 1 ]; then
        mapfile -t COMPREPLY < <(compgen -W 'b64 jwe jwk jws' -- "$current")
        return
    fi
    if [ "$COMP_CWORD" = 2 ]; then
        case ${COMP_WORDS[1]} in
            b64) letters='enc dec' ;;
            jwe) letters='enc dec fmt' ;;
            jwk) letters='gen thp' ;;
            jws) letters='sig ver fmt' ;;
        esac
        mapfile -t COMPREPLY < <(compgen -W "$letters" -- "$current")
        return
    fi
    # The letters of a command; a colon follows one that takes a value.
    case "${COMP_WORDS[1]} ${COMP_WORDS[2]}" in
        'jwk gen') letters='i: o: R:' ;;
        'jwk thp') letters='i: a: o:' ;;
        'b64 enc') letters='I: o:' ;;
        'b64 dec') letters='i: O:' ;;
        'jws sig') letters='s: I: k: o: O: c' ;;
        'jws ver') letters='i: I: k: a O:' ;;
        'jws fmt') letters='i: I: o: O: c' ;;
        'jwe enc') letters='i: I: k: o: O: c R:' ;;
        'jwe dec') letters='i: I: k: O:' ;;
        'jwe fmt') letters='i: I: o: O: c' ;;
        *) return ;;
    esac
    _jose_letters 3 "$letters" 'S224 S256 S384 S512'
}

# After the word `command` the words are those of jose.
_jose_look() {
    COMPREPLY=()
    if [ "$COMP_CWORD" -gt 1 ] && [ "${COMP_WORDS[1]}" = command ]; then
        local -a words=(jose "${COMP_WORDS[@]:2}")
        local COMP_CWORD=$((COMP_CWORD - 1)) COMP_WORDS=("${words[@]}")
        _jose
        return
    fi
    _jose_files
    if [ "$COMP_CWORD" = 1 ] && [[ "command" == "${COMP_WORDS[1]}"* ]]; then
        COMPREPLY+=(command)
    fi
}

_jose_password() {
    local i
    COMPREPLY=()
    for ((i = 1; i < COMP_CWORD; i++)); do
        case ${COMP_WORDS[i]} in
            enc) _jose_letters $((i + 1)) 'I: o: O: c R:' ''; return ;;
            dec) _jose_letters $((i + 1)) 'i: I: O:' ''; return ;;
        esac
    done
    _jose_letters 1 'n a: p: f:' 'PBES2-HS256+A128KW PBES2-HS384+A192KW PBES2-HS512+A256KW' 'enc dec'
}

_jose_set() {
    local current=${COMP_WORDS[COMP_CWORD]}
    COMPREPLY=()
    if [ "$COMP_CWORD" = 1 ]; then
        mapfile -t COMPREPLY < <(compgen -W 'add join remove' -- "$current")
    elif [ "${COMP_WORDS[1]} $COMP_CWORD" = 'join 2' ] && [[ $current == -* ]]; then
        COMPREPLY=(-o)
    elif [ "${COMP_WORDS[1]}" = remove ] && [ "$COMP_CWORD" -gt 2 ]; then
        # The thumbprints of the set.
        if [ -f "${COMP_WORDS[2]}" ]; then
            mapfile -t COMPREPLY < <(compgen -W "$(jose jwk thp -i "${COMP_WORDS[2]}" 2>/dev/null)" -- "$current")
        fi
    else
        _jose_files
    fi
}

_jose_verify_all() {
    COMPREPLY=()
    case $COMP_CWORD in
        1) ;;
        2) _jose_files ;;
        *) _jose_letters 3 'i: I: O:' '' ;;
    esac
}

complete -F _jose jose
complete -F _jose_look jose-look
complete -F _jose_password jose-password
complete -F _jose_set jose-set
complete -F _jose_verify_all jose-verify-all
