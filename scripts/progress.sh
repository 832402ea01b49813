# How far a proof is: a line that is rewritten on a terminal, a line for each count elsewhere. Read by the other scripts.

start=$(date +%s)
terminal=no
test -t 1 && terminal=yes

# Seconds as minutes and seconds: 125 is 2:05.
clock() { # SECONDS
    printf '%d:%02d' "$(($1 / 60))" "$(($1 % 60))"
}

told=0
drawn=no

# Says that so many are proved of so many; elsewhere than on a terminal a line for each that is new.
tell() { # DONE TOTAL
    passed=$(clock "$(($(date +%s) - start))")
    if test "$terminal" = yes; then
        printf '\r%s of %s proved, %s\033[K' "$1" "$2" "$passed"
        drawn=yes
        return
    fi
    while test "$told" -lt "$1"; do
        told=$((told + 1))
        printf '%s of %s proved, %s\n' "$told" "$2" "$passed"
    done
}

# Ends the line on a terminal, so that something else can be said.
end_line() {
    test "$drawn" = no || printf '\n'
    drawn=no
}
