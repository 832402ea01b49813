#!/bin/sh
# install-check.sh FOLDER: what `make install` put below FOLDER works from there: the program, a C program by pkg-config with the shared library and
# with the archive, the Python module, the manual page and the completions.

set -eu
root=$1
here=$(cd "$(dirname "$0")/.." && pwd)
own=$(mktemp -d)
trap 'rm -rf "$own"' EXIT
fail() {
    echo "install-check: $1" >&2
    exit 1
}

cd "$own"
"$root/bin/chukkanalli" evaluate kuhn 2 1 "$here/samples/always-pass.txt" | grep -q '^NashConv  *12 ' || fail 'the program'

if command -v pkg-config >/dev/null; then
    export PKG_CONFIG_PATH="$root/lib/pkgconfig"
    flags="--define-variable=prefix=$root chukkanalli"
    ${CC:-cc} -std=c11 -O1 $(pkg-config --cflags $flags) "$here/compare/cases.c" $(pkg-config --libs $flags) -o shared
    LD_LIBRARY_PATH="$root/lib" ./shared >/dev/null || fail 'a C program with the shared library'
    ${CC:-cc} -std=c11 -O1 $(pkg-config --cflags $flags) "$here/compare/cases.c" "$root/lib/libchukkanalli.a" -o static
    ./static >/dev/null || fail 'a C program with the archive'
else
    echo 'skipped: a C program by pkg-config (there is no pkg-config)'
fi

if command -v python3 >/dev/null; then
    told=$(PYTHONPATH="$root/share/chukkanalli" python3 -B -c 'import chukkanalli; g = chukkanalli.Game("kuhn"); print(g.nash_conv(g.table([1, 0] * 12, 1)))')
    test "$told" = 2 || fail "the Python module, which gives '$told'"
else
    echo 'skipped: the installed Python module (there is no python3)'
fi

for command in evaluate ladder reply explain improve template f64; do
    grep -q "^.SH $(echo $command | tr a-z A-Z)\$" "$root/share/man/man1/chukkanalli.1" || fail "the manual page of $command"
    for file in bash-completion/completions/chukkanalli zsh/site-functions/_chukkanalli fish/vendor_completions.d/chukkanalli.fish; do
        grep -q "$command" "$root/share/$file" || fail "$file on $command"
    done
done
if command -v bash >/dev/null; then
    told=$(bash -c ". '$root/share/bash-completion/completions/chukkanalli'; COMP_WORDS=(chukkanalli ex); COMP_CWORD=1; _chukkanalli; echo \${COMPREPLY[*]}")
    test "$told" = explain || fail "bash's completion, which gives '$told'"
fi
if command -v groff >/dev/null; then
    groff -man -Tutf8 "$root/share/man/man1/chukkanalli.1" | grep -q 'NashConv' || fail 'the manual page'
fi
echo 'what is installed works from its folder'
