#!/bin/sh
# Checks each verdict of this folder again. usage: sh recheck.sh   (AIG names another program aig)
case $0 in */*) cd "${0%/*}" || exit 3 ;; esac
aig=${AIG:-aig}
wrong=0
# check LINE WORD ..: aig has to print this line
check() {
    line=$1
    shift
    if [ "$("$aig" "$@")" = "$line" ]; then
        printf '%s: %s\n' "$line" "$*"
    else
        printf 'WRONG: aig %s does not print "%s"\n' "$*" "$line" >&2
        wrong=1
    fi
}
# of FILE PROPERTY LINES: the witness has to be for this property, and of this length
of() {
    if [ "$(sed -n 2p "$1")" != "$2" ] || [ "$(sed -n '$=' "$1")" != "$3" ]; then
        printf 'WRONG: %s is no witness of %s of this length\n' "$1" "$2" >&2
        wrong=1
    fi
}
check unreachable refute --property=0 --certificate 0.cert.aag circuit.aig 0.cert.drat
check unreachable refute --property=1 --certificate 1.cert.aag circuit.aig 1.cert.drat
of 2.wit b2 6
check confirmed check --property=2 circuit.aig 2.wit
check 'unreachable within 1' refute --frames=1 --property=2 circuit.aig 2.shorter.drat
check 'unreachable within 4' refute --frames=4 --property=3 circuit.aig 3.base.drat
check unreachable refute --property=4 --certificate 4.cert.aag circuit.aig 4.cert.drat
check unreachable refute --property=5 --certificate 5.cert.aag circuit.aig 5.cert.drat
check unreachable refute --property=6 --certificate 6.cert.aag circuit.aig 6.cert.drat
of 7.wit b7 7
check confirmed check --property=7 circuit.aig 7.wit
check 'unreachable within 2' refute --frames=2 --property=7 circuit.aig 7.shorter.drat
check unreachable refute --frames=1 --property=8 --step 8.step.drat circuit.aig 8.base.drat
of 9.wit b9 7
check confirmed check --property=9 circuit.aig 9.wit
check 'unreachable within 2' refute --frames=2 --property=9 circuit.aig 9.shorter.drat
exit $wrong
