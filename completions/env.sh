# Turns on the jose of the Debian package, with its pages and completions, in sh, bash and zsh: . /usr/lib/lakhdzeva/env.sh
PATH=/usr/lib/lakhdzeva/bin:$PATH
MANPATH=/usr/lib/lakhdzeva/share/man:${MANPATH-}
export PATH MANPATH
case $- in
    *i*)
        if [ -n "${BASH_VERSION-}" ]; then
            . /usr/lib/lakhdzeva/share/bash-completion/completions/jose
        elif [ -n "${ZSH_VERSION-}" ]; then
            # Where compinit comes later, it finds the completion by fpath.
            eval 'fpath=(/usr/lib/lakhdzeva/share/zsh/site-functions $fpath)
            if (( $+functions[compdef] )); then autoload -Uz _jose; compdef _jose jose jose-{look,password,set,verify-all}; fi'
        fi
        ;;
esac
