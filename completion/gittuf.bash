# Completion of bash for gittuf, gittuf-inspect and git gittuf. It goes into bash-completion's folder under these names,
# with git-gittuf for the last, where it and git's own completion find it, or is sourced.

_gittuf_reply() { mapfile -t COMPREPLY < <(compgen "$@" -- "$cur"); }

_gittuf_references() { git for-each-ref --format='%(refname)' refs/heads refs/tags 2> /dev/null; }

_gittuf_branches() { git for-each-ref --format='%(refname:short)' refs/heads refs/tags 2> /dev/null; }

_gittuf_remote_branches() { git for-each-ref --format='%(refname:short)' refs/remotes 2> /dev/null; }

# The program: a store, a key file, a command and its words.
_gittuf() {
    local cur=${COMP_WORDS[COMP_CWORD]}
    case $COMP_CWORD in
        1) _gittuf_reply -d -S / -W '- --help --version'; compopt -o nospace 2> /dev/null ;;
        2) _gittuf_reply -f -W - ;;
        3) _gittuf_reply -W 'key-gen seal snapshot record annotate approve policy-apply explain log import export demo mirror evidence-make evidence-check serve push verify-global verify-ref' ;;
        *)
            case ${COMP_WORDS[3]} in
                key-gen) [ "$COMP_CWORD" -eq 4 ] && _gittuf_reply -W '5 10 15' || _gittuf_reply -W '1 2 4 8' ;;
                seal) _gittuf_reply -W --add ;;
                serve) _gittuf_reply -W --gate ;;
                annotate) [ "$COMP_CWORD" -eq 4 ] && _gittuf_reply -W 'skip note' || _gittuf_reply -W --message ;;
                verify-ref) _gittuf_reply -W "$(_gittuf_references) --root --stdin" ;;
                verify-global) _gittuf_reply -W "$(_gittuf_references) --root" ;;
                record | snapshot | approve) _gittuf_reply -W "$(_gittuf_references)" ;;
                explain) _gittuf_reply -W 'git: file:' ;;
            esac
            ;;
    esac
}

# The program gittuf-inspect: a store, a word and what it takes.
_gittuf_inspect() {
    local cur=${COMP_WORDS[COMP_CWORD]}
    case $COMP_CWORD in
        1) _gittuf_reply -d -S / -W -; compopt -o nospace 2> /dev/null ;;
        2) _gittuf_reply -W 'log verdicts would used policy' ;;
        *)
            case ${COMP_WORDS[2]} in
                log) _gittuf_reply -W '--root --from' ;;
                verdicts) _gittuf_reply -W "$(_gittuf_references) --root" ;;
                would) _gittuf_reply -W "$(_gittuf_references) --key --root --annotate" ;;
                used) _gittuf_reply -W '--key --root' ;;
                policy) _gittuf_reply -W '--root --at --against' ;;
            esac
            ;;
    esac
}

# The words after git gittuf, or after git-gittuf.
_git_gittuf() {
    local cur=${COMP_WORDS[COMP_CWORD]} at=0
    while [ "$at" -lt "$COMP_CWORD" ] && [[ ${COMP_WORDS[at]} != gittuf && ${COMP_WORDS[at]} != *git-gittuf ]]; do
        at=$((at + 1))
    done
    if [ "$((COMP_CWORD - at))" -le 1 ]; then
        _gittuf_reply -W 'setup key policy record approve verify recover push fetch sync skip note log explain report export mirror evidence doctor hook'
        return
    fi
    case ${COMP_WORDS[at + 1]} in
        setup) _gittuf_reply -W "--anew --root --entry --store folder database $(git remote 2> /dev/null)" ;;
        doctor) _gittuf_reply -W "--take --anyway --json --store folder database $(git remote 2> /dev/null)" ;;
        key) _gittuf_reply -f -W '--file --height --width --bottom --id --public' ;;
        record | recover) _gittuf_reply -W "--anyway $(_gittuf_branches)" ;;
        approve) _gittuf_reply -W "--anyway --delete $(_gittuf_branches)" ;;
        push) _gittuf_reply -W "--anyway --remote --desk $(_gittuf_branches)" ;;
        fetch) _gittuf_reply -W '--desk --remote' ;;
        sync) _gittuf_reply -W '--anyway --remote' ;;
        verify) _gittuf_reply -W "--root --pinned --entry --remote -v --json $(_gittuf_branches) $(_gittuf_remote_branches)" ;;
        log) _gittuf_reply -W '-v --json' ;;
        report) _gittuf_reply -f -W '-o --root --pinned --entry --remote' ;;
        explain) _gittuf_reply -f -W "-v --json $(_gittuf_branches)" ;;
        mirror) _gittuf_reply -f -W "--into $(git remote 2> /dev/null)" ;;
        evidence) _gittuf_reply -f -W '-o --check --from --key' ;;
        skip | note) _gittuf_reply -W '-m --anyway' ;;
        hook) _gittuf_reply -W 'install --server --most-seconds --remove' ;;
        policy)
            if [ "$((COMP_CWORD - at))" -eq 2 ]; then
                _gittuf_reply -W 'init person rotate rule global show sign discard apply'
            elif [ "${COMP_WORDS[at + 2]}" = rule ]; then
                _gittuf_reply -W "--persons --threshold --terminating --no-terminating --before --file --remove $(_gittuf_references)"
            elif [ "${COMP_WORDS[at + 2]}" = global ]; then
                _gittuf_reply -W "threshold no-rewind --remove $(_gittuf_references)"
            elif [ "${COMP_WORDS[at + 2]}" = person ]; then
                _gittuf_reply -W --remove
            elif [ "${COMP_WORDS[at + 2]}" = apply ]; then
                _gittuf_reply -W --anyway
            elif [ "${COMP_WORDS[at + 2]}" = sign ]; then
                _gittuf_reply -W --id
            elif [ "${COMP_WORDS[at + 2]}" = show ]; then
                _gittuf_reply -W --json
            fi
            ;;
    esac
}

complete -F _gittuf gittuf ./gittuf
complete -F _gittuf_inspect gittuf-inspect
complete -F _git_gittuf git-gittuf
