#!/bin/sh
# prove.sh NAME LOG: proves a static library with all that it depends on, and writes its archive to target/staticlib; LOG gets what rt says. It says
# first how many crates are to be proved and about how long that takes, then counts.

name=$1 log=$2
. "$(dirname "$0")/progress.sh"

# Seconds that a crate takes at least, and lines that are proved in a second.
a_crate=12
lines_a_second=110

# What a crate depends on.
deps() { # NAME
    sed -n "s/^$1\( [a-z0-9_ =]*\)\{0,1\}: *//p" crates.txt
}

# A crate and all that it depends on, in the order of crates.txt.
needed() { # NAME
    awk -v name="$1" -F': *' '
        function take(crate,   i, list, count) {
            if (crate in taken) return
            taken[crate] = 1
            count = split(deps[crate], list, " ")
            for (i = 1; i <= count; i++) take(list[i])
        }
        /^#/ || NF == 0 { next }
        { sub(/ .*/, "", $1); deps[$1] = $2; order[++n] = $1 }
        END { take(name); for (i = 1; i <= n; i++) if (order[i] in taken) print order[i] }' crates.txt
}

# Whether nothing was proved of a crate, or it has a file that is newer than that and than the archive.
is_changed() { # NAME
    test "$1" = "$name" || test -f "crates/$1/out/rlib/stamp" || return 0
    for proof in "crates/$1/out/rlib/stamp" "target/staticlib/lib$name.a"; do
        test -f "$proof" || continue
        test -n "$(find "crates/$1" -path "crates/$1/out" -prune -o -type f -newer "$proof" -print | head -n 1)" || return 1
    done
    return 0
}

# Of some crates in order, those that are to be proved: changed ones, and those that depend on such a one.
to_prove() { # NAME...
    todo=' '
    for crate in "$@"; do
        again=no
        for used in $(deps "$crate"); do
            case $todo in *" $used "*) again=yes ;; esac
        done
        if test "$again" = yes || is_changed "$crate"; then todo="$todo$crate "; fi
    done
    echo "$todo"
}

# How many there are of something, as `1 crate` and `2 crates`.
counted() { # COUNT NAME
    if test "$1" -eq 1; then echo "1 $2"; else echo "$1 $2s"; fi
}

# About how many minutes it takes to prove some crates, one after another.
minutes() { # NAME...
    lines=$(for crate in "$@"; do
        find "crates/$crate" -path "crates/$crate/out" -prune -o -type f \( -name '*.rt' -o -name '*.antt' \) -exec cat {} +
    done | wc -l)
    echo $((($# * a_crate + lines / lines_a_second + 59) / 60))
}

# How many of the crates that are to be proved are.
proved() {
    done=$(grep -c '^logic=proved ' "$log")
    if test "$done" -lt "$total"; then echo "$done"; else echo "$total"; fi
}

# Runs something in the library's folder, and counts while it runs.
counting() { # COMMAND...
    (cd "crates/$name" && exec "$@") >>"$log" 2>&1 &
    running=$!
    while kill -0 "$running" 2>/dev/null; do
        test "$total" -eq 0 || tell "$(proved)" "$total"
        sleep 1
    done
    wait "$running"
}

# Whether `rt ci` has proved the crates as they stand, and its libraries are in crates/*/out (gate.sh notes that).
after_ci() {
    noted=$(dirname "$log")/ci.libraries
    test -f "$noted" && test -z "$(find crates crates.txt -path 'crates/*/out' -prune -o -type f -newer "$noted" -print | head -n 1)"
}

# Builds the archive over the libraries that `rt ci` left, with the words that rt itself gives: `rt lib` builds its own libraries, by proving all that
# they hold once more. The crate of the archive is proved here like any other.
over_ci() {
    kit=$(dirname "$(rt doc)")
    set -- --crate-name "$name" src/lib.rt --extern "std=$kit/rlibs/std.rlib" -L "dependency=$kit/rlibs"
    for used in $(deps "$name"); do
        rlib=../$used/out/rlib/$used.rlib
        test -d "crates/$used" || rlib=$kit/rlibs/$used.rlib
        set -- "$@" --extern "$used=$rlib"
    done
    for used in $crates; do
        test "$used" = "$name" || set -- "$@" -L "dependency=../$used/out/rlib"
    done
    mkdir -p "crates/$name/out"
    counting "$kit/bin/rattle" build "$@" --antt-project "$kit/rattle/logic/antt-project.json" --logic-built "$kit/logic_built" --jobs 2 --links "$name=" \
        --crate-type staticlib --toolchain "$kit/toolchain" --backend llvm -o "out/lib$name.a"
}

running=
trap 'end_line; test -z "$running" || kill "$running" 2>/dev/null; exit 130' INT TERM

mkdir -p "$(dirname "$log")"
: >"$log"
crates=$(needed "$name")
total=0
if ! { after_ci && over_ci; }; then
    : >"$log"
    # shellcheck disable=SC2046,SC2086
    set -- $(to_prove $crates)
    total=$#
    if test "$total" -gt 0; then
        about=$(counted "$(minutes "$@")" minute)
        echo "proving $(counted "$total" crate), which takes about $about and is needed once; $log has what rt says"
    fi
    if ! counting rt lib; then
        end_line
        cat "$log"
        exit 1
    fi
    test "$total" -eq 0 || tell "$total" "$total"
    end_line
fi
mkdir -p target/staticlib
cp "crates/$name/out/lib$name.a" target/staticlib/
