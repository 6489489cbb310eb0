#!/bin/sh
# Checks each verdict of this folder again. usage: sh recheck.sh   (AIG names another program aig)
case $0 in */*) cd "${0%/*}" || exit 3 ;; esac
aig=${AIG:-aig}
wrong=0
# check LINE WORD ..: aig has to print this line
check() {
    line=$1
    shift
    if [ "$("$aig" "$@")" = "$line" ]; then
        printf '%s: %s\n' "$line" "$*"
    else
        printf 'WRONG: aig %s does not print "%s"\n' "$*" "$line" >&2
        wrong=1
    fi
}
# of FILE PROPERTY LINES: the witness has to be for this property, and of this length
of() {
    if [ "$(sed -n 2p "$1")" != "$2" ] || [ "$(sed -n '$=' "$1")" != "$3" ]; then
        printf 'WRONG: %s is no witness of %s of this length\n' "$1" "$2" >&2
        wrong=1
    fi
}
check 'no run of 5 frames' refute --alive --frames=5 circuit.aig alive.drat
check unreachable refute --property=0 --certificate 0.cert.aag circuit.aig 0.cert.drat
exit $wrong
