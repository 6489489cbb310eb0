#!/bin/sh
# Checks each verdict of this folder again. usage: sh recheck.sh   (AIG names another program aig)
case $0 in */*) CDPATH= cd -- "${0%/*}" || exit 3 ;; esac
aig=${AIG:-aig}
wrong=0
# check LINE WORD ..: aig has to print this line
check() {
    line=$1
    shift
    if [ "$("$aig" "$@")" = "$line" ]; then
        printf '%s: %s\n' "$line" "$*"
    else
        printf 'WRONG: aig %s does not print "%s"\n' "$*" "$line" >&2
        wrong=1
    fi
}
# cut CUTS LINE WORD ..: the same of the circuit without what a file cuts
cut() {
    cuts=$1
    line=$2
    shift 2
    if [ "$("$aig" cut --to aag --cuts "$cuts" circuit.aig | "$aig" "$@")" = "$line" ]; then
        printf '%s: cut --cuts %s, %s\n' "$line" "$cuts" "$*"
    else
        printf 'WRONG: cut by %s, aig %s does not print "%s"\n' "$cuts" "$*" "$line" >&2
        wrong=1
    fi
}
# of FILE PROPERTY LINES: the witness has to be for this property, and of this length
of() {
    if [ "$(sed -n 2p "$1")" != "$2" ] || [ "$(sed -n '$=' "$1")" != "$3" ]; then
        printf 'WRONG: %s is no witness of %s of this length\n' "$1" "$2" >&2
        wrong=1
    fi
}
check alive check --alive --frames=20 circuit.aig alive.wit
of 0.wit b0 15
of 0.concrete.wit b0 15
check confirmed check --property=0 circuit.aig 0.wit
check confirmed check --property=0 circuit.aig 0.concrete.wit
check 'unreachable within 10' refute --frames=10 --property=0 circuit.aig 0.shorter.drat
check unreachable refute --frames=1 --property=1 --step 1.step.drat circuit.aig 1.base.drat
exit $wrong
