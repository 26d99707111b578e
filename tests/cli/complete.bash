# What bash offers after each command line of standard input, by a file of completions for one command: `files` where
# it is file names.
# usage: bash tests/cli/complete.bash FILE
compopt() { printf 'files\n'; }
# shellcheck source=share/completions/ldvbi.bash
. "$1"
function=$(complete -p | sed 's/.*-F \([a-z_]*\) .*/\1/')
while IFS= read -r words; do
    # the words as bash cuts them, with = a word of its own, and an empty one after a space or =
    read -ra COMP_WORDS <<< "${words//=/ = }"
    [[ $words == *[[:space:]] ]] && COMP_WORDS+=('')
    COMP_CWORD=$((${#COMP_WORDS[@]} - 1))
    offered=$("$function" && printf '%s\n' "${COMPREPLY[@]}")
    echo "$words|$(printf '%s\n' "$offered" | sed '/^$/d' | sort | paste -s -d ' ')"
done
