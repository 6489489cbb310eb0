# Makes bundles in a version of Debian, or checks there those that other versions made (run_debians.sh).
# usage: exchanged.sh ROOT REPOSITORY FOLDER PROGRAM make|check SUITE
. "$2/tests/debians/mounted.sh"
inside python3 /aig/tests/debians/exchanged.py "$1" "$2" /folder/exchanged
