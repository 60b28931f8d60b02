#!/bin/sh
# Makes the plan files of this folder anew: sh plans/make.sh
set -e
cd "$(dirname "$0")"

# Numbers of 8, 16 and 32 bits, big-endian: a byte is printed by its octal escape.
byte() {
    printf "\\$(printf %03o "$1")"
}

word() {
    byte $(($1 / 256))
    byte $(($1 % 256))
}

long() {
    word $(($1 / 65536))
    word $(($1 % 65536))
}

# plan FILE N C n k0 g t min max SLOT..
plan() {
    {
        printf CSP
        word 1
        byte "$2"
        word "$3"
        word "$4"
        byte "$5"
        byte "$6"
        byte "$7"
        long "$8"
        long "$9"
        shift 9
        for slot in "$@"; do
            word "$slot"
        done
    } >"$1"
}

#    file             N  C    n  k0  g   t   min     max     slots
plan room.csp         3  6    4  10  2   2   39      40      0 1 2
plan room-rule-1.csp  3  6    4  10  2   2   38      39      0 1 2
plan room-rule-2.csp  3  6    4  7   3   2   14      15      0 1 2
plan ten.csp          10 1129 10 29  3   2   999980  1000020 0 1 2 3 4 5 6 7 8 9
plan ten-rule-1.csp   10 1129 10 29  2   2   999980  1000020 0 1 2 3 4 5 6 7 8 9
plan ten-rule-3.csp   10 1129 10 29  3   1   999980  1000020 0 1 2 3 4 5 6 7 8 9
plan small.csp        3  3    3  5   1   2   1       1       0 1 2
plan large.csp        32 4096 32 255 126 127 1036449 1036574 0 1 2 3 4 5 6 7 8 9 10 11 12 13 14 15 16 17 18 19 20 21 22 23 24 25 26 27 28 29 30 31
plan damaged.csp      4  6    4  10  2   2   39      40      0 1 2
