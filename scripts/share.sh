#!/bin/sh
# share.sh PROGRAM FOLDER: writes the manual page and the completions of bash, zsh and fish to a folder, all from what PROGRAM's own help says.

set -eu
program=$1 folder=$2
mkdir -p "$folder"

commands=$("$program" help | sed -n 's/^  chukkanalli \([a-z0-9]*\) .*/\1/p')
options=$("$program" help | sed -n 's/^\(--[a-z-]*\).*/\1/p' | sort -u | grep -v '^--$')
words=$(echo $commands)
flags=$(echo $options)

# What a page shows as it is: no line begins with a control character of roff.
verbatim() {
    printf '.nf\n'
    sed -e 's/\\/\\e/g' -e 's/-/\\-/g' -e "s/^[.']/\\\\\\&&/"
    printf '.fi\n'
}

{
    printf '.TH CHUKKANALLI 1 "" "%s" ""\n' "$("$program" --version)"
    printf '.SH NAME\nchukkanalli \\- evaluates strategy tables for Kuhn and Leduc poker by proved calls\n'
    printf '.SH SYNOPSIS\n'
    "$program" help | sed -n 's/^  \(chukkanalli .*[^ ]\)   *.*/\1/p' | verbatim
    printf '.SH DESCRIPTION\n'
    "$program" help | verbatim
    for command in $commands; do
        test "$command" != help || continue
        printf '.SH %s\n' "$(echo "$command" | tr a-z A-Z)"
        "$program" help "$command" | verbatim
    done
} >"$folder/chukkanalli.1"

cat >"$folder/chukkanalli.bash" <<END
_chukkanalli() {
    local word=\${COMP_WORDS[COMP_CWORD]}
    if [ "\$COMP_CWORD" = 1 ] || [ "\${COMP_WORDS[1]}" = help ]; then
        COMPREPLY=(\$(compgen -W "$words --version --help" -- "\$word"))
    elif [ "\${word#-}" != "\$word" ]; then
        COMPREPLY=(\$(compgen -W "$flags" -- "\$word"))
    elif [ "\$COMP_CWORD" = 2 ]; then
        COMPREPLY=(\$(compgen -W 'kuhn leduc' -- "\$word") \$(compgen -f -- "\$word"))
    else
        COMPREPLY=(\$(compgen -f -- "\$word"))
    fi
}
complete -o filenames -F _chukkanalli chukkanalli
END

cat >"$folder/_chukkanalli" <<END
#compdef chukkanalli
if ((CURRENT == 2)) || [[ \${words[2]} == help ]]; then
    compadd -- $words --version --help
elif [[ \${words[CURRENT]} == -* ]]; then
    compadd -- $flags
else
    ((CURRENT == 3)) && compadd -- kuhn leduc
    _files
fi
END

{
    printf 'complete -c chukkanalli -n __fish_use_subcommand -f -a "%s"\n' "$words"
    printf 'complete -c chukkanalli -n "__fish_seen_subcommand_from help" -f -a "%s"\n' "$words"
    for option in $options; do
        printf 'complete -c chukkanalli -n "not __fish_use_subcommand" -l %s\n' "${option#--}"
    done
} >"$folder/chukkanalli.fish"
