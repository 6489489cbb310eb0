# The tests that need Yosys, in a version of Debian (run_debians.sh): those of the steps that are named.
# usage: suite.sh ROOT REPOSITORY FOLDER PROGRAM COUNT STEP ..
. "$2/tests/debians/mounted.sh"
count=$1
shift

# The part `designs` of run_tools.py is the step of that name.
tools() {
    parts=
    for part in conversions unrolled maps witnesses waves flow proofs solvers own_variables certificates verdicts \
        aig_verdicts dask pages traces; do
        parts="$parts --part $part"
    done
    inside /aig/tests/run_tools.py $parts "$program"
}

recheck() {
    said=$(inside /aig/tools/aig-verdicts recheck --yosys /aig/examples/queue.verdicts 2>&1)
    echo "$said"
    echo "$said" | grep -qE "Yosys makes (the same circuit|a circuit of the sources that does the same)"
}

for step; do
    case $step in
    tour) inside /aig/tests/tour.py "$program" ;;
    probes) inside /aig/verdicts/tests/run_probes.py "$program" overridden ;;
    designs | bundles | replay) inside "/aig/verdicts/tests/run_$step.py" "$program" ;;
    random) inside /aig/verdicts/tests/random_verilog.py "$program" 1 "$count" ;;
    tools | recheck) $step ;;
    esac || failed=1
done
exit $failed
