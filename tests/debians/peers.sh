# Measures `aig refute` beside the checkers of proofs that Debian has since version 13 (run_debians.sh).
# usage: peers.sh ROOT REPOSITORY FOLDER PROGRAM OPTION ..
. "$2/tests/debians/mounted.sh"
inside apt-get install -qy --no-install-recommends drat-trim kissat >> "$root.log" 2>&1 || exit 1
inside /aig/benchmarks/peers.py "$program" "$@"
