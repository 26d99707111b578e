# Completion of ldvbi's command line, for bash 4 or later. Written by texts/write.py.

_ldvbi() {
    local word=${COMP_WORDS[COMP_CWORD]} before=${COMP_WORDS[COMP_CWORD - 1]} command=${COMP_WORDS[1]}
    local options='' answers=''
    COMPREPLY=()

    # bash cuts --system=PAL into three words
    if [ "$word" = = ]; then
        word=
    elif [ "$before" = = ]; then
        before=${COMP_WORDS[COMP_CWORD - 2]}
    fi
    [ "$COMP_CWORD" != 1 ] || command=

    case $command in
        '') answers='line extract show draw help --help --version' ;;
        help)
            [ "$COMP_CWORD" = 2 ] || return
            answers='line extract show draw'
            ;;
        line | draw)
            options='--meta --system --black --white --max-fields --help'
            case $before in
                --system) answers='NTSC PAL' ;;
                --meta) compopt -o default; return ;;
                --black | --white | --max-fields) return ;;
            esac
            ;;
        extract | show)
            options='--meta --system --black --white --max-fields --recover --help'
            case $before in
                --system) answers='NTSC PAL' ;;
                --meta) compopt -o default; return ;;
                --black | --white | --max-fields) return ;;
            esac
            ;;
    esac
    if [ -z "$answers" ]; then
        case $word in
            -*) answers=$options ;;
            *) compopt -o default ;;
        esac
    fi
    if [ -n "$answers" ]; then
        # shellcheck disable=SC2207
        COMPREPLY=($(compgen -W "$answers" -- "$word"))
    fi
}

complete -F _ldvbi ldvbi
