#!/bin/sh
# Looks at the manual pages and the completions, which texts/write.py makes of the source: mandoc takes the pages, and
# bash and zsh offer what is meant, with the options that the help of the built program and of ldvbi-side has.
# usage: sh tests/cli/manual.sh PROGRAM
# runs: everywhere
# fails where: share/completions/ldvbi.bash|s/extract/extrakt/

. "$(dirname "$0")/../helpers.sh"

completions=$top/share/completions
commands='draw extract line show'
does mandoc -T lint -W warning "$top"/share/man/*.1
check 'mandoc has no warning of the pages' [ "$status$(cat out err)" = 0 ]
# options FILE WORD..: writes the long options in this help into the file, sorted, on one line
options() {
    file=$1
    shift
    COLUMNS=500 PYTHONDONTWRITEBYTECODE=1 bounded "$@" --help < empty 2> err |
        sed -n 's/^ *\(-[^ ].*\)/\1/p' | sed 's/   .*//' | grep -o -e '--[a-z-]*' | sort -u | paste -s -d ' ' > "$file"
}
for command in $commands; do options $command.options "$program" $command; done
for command in '' join scan; do options ${command:-side}.options "$top/python/ldvbi-side" $command; done

# offered COMMAND: checks what is offered after each of these command lines: those of the file `offers`, and what
# differs between the shells. bash offers all at once, zsh options after a dash alone; the file names of zsh are those
# of this folder.
mkdir folder
touch page.txt page.one
offered() {
    sed 's/^ldvbi |.*/ldvbi |--help --version draw extract help line show/' offers >> bash.offers
    cat offers >> zsh.offers
    sed 's/|.*//' bash.offers | bounded bash "$here/complete.bash" "$completions/$1.bash" > out 2> err
    check "what bash offers after $1" cmp out bash.offers
    sed 's/|.*//' zsh.offers | bounded zsh -f "$here/complete.zsh" "$completions" > out 2> err
    check "what zsh offers after $1" cmp out zsh.offers
}
cat > offers << END
ldvbi |draw extract help line show
ldvbi ex|extract
ldvbi --v|--version
ldvbi help |$commands
ldvbi help show |
ldvbi line --system=|NTSC PAL
ldvbi draw --black 16384 --system N|NTSC
ldvbi show --m|--max-fields --meta
ldvbi extract --max-fields=|
ldvbi line --black |
ldvbi show --white |
$(for command in $commands; do echo "ldvbi $command --|$(cat $command.options)"; done)
END
printf '%s\n' 'ldvbi extract |files' 'ldvbi extract --meta |files' 'ldvbi extract --meta=s|files' > bash.offers
printf '%s\n' 'ldvbi extract pag|page.one page.txt' 'ldvbi extract --meta page.t|page.txt' \
    'ldvbi extract --meta=page.t|page.txt' > zsh.offers
offered ldvbi
cat > offers << END
ldvbi-side --|$(cat side.options)
ldvbi-side side.tbc --s|--seek --strict --summary --svg --system
ldvbi-side --system=P|PAL
ldvbi-side --seek |
ldvbi-side scan --|$(cat scan.options)
ldvbi-side scan --j|--jobs --json
ldvbi-side scan -j |
ldvbi-side join --|$(cat join.options)
ldvbi-side join a.tbc --system |NTSC PAL
END
printf '%s\n' 'ldvbi-side |files' 'ldvbi-side --svg |files' 'ldvbi-side -o s|files' \
    'ldvbi-side scan --html |files' > bash.offers
printf '%s\n' 'ldvbi-side page.t|page.txt' 'ldvbi-side --svg page.t|page.txt' 'ldvbi-side --csv --j|' \
    'ldvbi-side scan --html=fol|folder' > zsh.offers
offered ldvbi-side
finish
