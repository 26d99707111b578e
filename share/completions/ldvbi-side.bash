# Completion of ldvbi-side's command line, for bash 4 or later. Written by texts/write.py.

_ldvbi_side() {
    local word=${COMP_WORDS[COMP_CWORD]} before=${COMP_WORDS[COMP_CWORD - 1]} command=${COMP_WORDS[1]}
    local options='' answers=''
    COMPREPLY=()

    # bash cuts --system=PAL into three words
    if [ "$word" = = ]; then
        word=
    elif [ "$before" = = ]; then
        before=${COMP_WORDS[COMP_CWORD - 2]}
    fi
    [ "$COMP_CWORD" != 1 ] || command=

    case $command in
        join)
            options='--help --meta --system --black --white --no-recover --strict --open-end --last --csv --ranges'
            options="$options "'--json --html --map --chapters'
            case $before in
                --system) answers='NTSC PAL' ;;
                --meta | --html | --map | --chapters) compopt -o default; return ;;
                --black | --white | --last) return ;;
            esac
            ;;
        scan)
            options='--help --jobs --meta --system --black --white --no-recover --strict --open-end --last --csv'
            options="$options "'--json --html --into --as-read --map --chapters --sides --write --again'
            case $before in
                --system) answers='NTSC PAL' ;;
                --meta | --sides) compopt -o default; return ;;
                --html | --into | --map | --chapters | --write) compopt -o dirnames; return ;;
                -j | --jobs | --black | --white | --last) return ;;
            esac
            ;;
        write)
            options='--help --change --from --ends --sure --one-side --most-padding --plan --recovered --meta'
            options="$options "'--system --black --white --no-recover --strict --open-end --last'
            case $before in
                --system) answers='NTSC PAL' ;;
                --meta) compopt -o default; return ;;
                --change | --from | --most-padding | --black | --white | --last) return ;;
            esac
            ;;
        *)
            options='--help --version --meta --system --black --white --no-recover --strict --open-end --last --csv'
            options="$options "'--json --bad-lines --seek --summary --document --plot-line --recovered --output --svg --html'
            options="$options "'--map --chapters --into --as-read'
            case $before in
                --system) answers='NTSC PAL' ;;
                --meta | -o | --output | --svg | --html | --map | --chapters | --into) compopt -o default; return ;;
                --black | --white | --last | --seek | --plot-line) return ;;
            esac
            ;;
    esac
    if [ -z "$answers" ]; then
        case $word in
            -*) answers=$options ;;
            *) compopt -o default ;;
        esac
    fi
    if [ -n "$answers" ]; then
        # shellcheck disable=SC2207
        COMPREPLY=($(compgen -W "$answers" -- "$word"))
    fi
}

complete -F _ldvbi_side ldvbi-side
