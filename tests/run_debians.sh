#!/bin/sh
# Runs what needs Yosys with the Yosys, ABC, cadical, Icarus Verilog and Python of other versions of Debian. In each
# version: the tour of README.md, what newer versions of Yosys lose, designs with known truth, bundles, run_tools.py
# with the commands of verdicts/docs/FLOW.md, COUNT random programs (500), and whether this Yosys makes the circuit of the
# shipped bundle, or one that does the same (debians/suite.sh). Each version also makes bundles, and checks those of
# the others. Then the package and the wheel are installed as README says, each where nothing else is, and README and
# FLOW are typed there (debians/installed.sh).
#
# It makes folders of each version below FOLDER (4 GB), and the next call uses them again. It is no part of the gate.
# It needs root, debootstrap, unshare, dpkg-deb and a mirror of Debian (MIRROR, else that of debootstrap). JOBS=2 runs
# two versions beside each other. STEPS names some of the steps alone, as "designs package"; made only makes the
# folders, and peers runs benchmarks/peers.py with the options PEERS. Debian 12 has no drat-trim for it.
#
# usage: run_debians.sh PROGRAM FOLDER SUITE ..     as: run_debians.sh build/aig /var/tmp/debians bookworm trixie sid
set -eu
repository=$(cd "$(dirname "$0")/.." && pwd)
program=$(realpath "$1") folder=$(realpath -m "$2")
shift 2
suites=$*
all="tour probes designs bundles replay tools recheck random"
steps=${STEPS:-$all exchanged package wheel pipx}
mirror=${MIRROR:-}
tools="yosys cadical cryptominisat picosat minisat z3 python3 python3-click python3-distributed iverilog g++ gtkwave
    xvfb xauth chromium"
failed=0
mkdir -p "$folder/exchanged"

# plain SUITE: a folder with the least of this version of Debian
plain() {
    [ ! -e "$folder/$1.plain/made" ] || return 0
    rm -rf "$folder/$1.plain"
    debootstrap --variant=minbase "$1" "$folder/$1.plain" $mirror > "$folder/$1.plain.log" 2>&1
    # a mirror may have an older sid than its lists allow
    echo 'Acquire::Check-Valid-Until "false";' > "$folder/$1.plain/etc/apt/apt.conf.d/90older"
    echo force-unsafe-io > "$folder/$1.plain/etc/dpkg/dpkg.cfg.d/unsafe"  # nobody needs these folders after a crash
    chroot "$folder/$1.plain" apt-get update >> "$folder/$1.plain.log" 2>&1
    touch "$folder/$1.plain/made"
}

# made SUITE: a folder that has the tools, too. debootstrap itself does not find a session bus for Yosys of Debian 12.
made() {
    [ ! -e "$folder/$1/made" ] || return 0
    plain "$1"
    rm -rf "$folder/$1"
    cp -a "$folder/$1.plain" "$folder/$1"
    rm "$folder/$1/made"
    chroot "$folder/$1" env DEBIAN_FRONTEND=noninteractive apt-get install -qy --no-install-recommends $tools \
        > "$folder/$1.log" 2>&1
    touch "$folder/$1/made"
}

# within ROOT SCRIPT WORD ..: runs a script of debians, to which the mounts belong: they go when it ends
within() {
    root=$1 script=$2
    shift 2
    unshare -m sh "$repository/tests/debians/$script" "$root" "$repository" "$folder" "$program" "$@" || failed=1
}

is_step() {
    case " $steps " in *" $1 "*) return 0 ;; *) return 1 ;; esac
}

# tried SUITE: the steps that need the tools. Bundles of other versions are checked when all have made theirs.
tried() {
    made "$1"
    said=$(chroot "$folder/$1" sh -c 'yosys -V; iverilog -V; python3 -V; echo cadical $(cadical --version)' 2>&1)
    echo "== $(echo "$said" | grep -E '^(Yosys|Icarus Verilog version|Python|cadical)' | tr '\n' ' ')"
    [ -z "$parts" ] || within "$folder/$1" suite.sh "${COUNT:-500}" $parts
    ! is_step exchanged || within "$folder/$1" exchanged.sh make "$1"
    ! is_step peers || within "$folder/$1" peers.sh ${PEERS:-}
}

checked() {
    echo "== bundles of the other versions"
    within "$folder/$1" exchanged.sh check "$1"
}

installed() {
    for way in package wheel pipx; do
        is_step $way || continue
        echo "== the $way, where nothing else is installed"
        plain "$1"
        rm -rf "$folder/$1.$way"
        cp -a "$folder/$1.plain" "$folder/$1.$way"
        within "$folder/$1.$way" installed.sh $way
    done
}

# each FUNCTION: calls it for each version, JOBS of them at once, and puts the version before each line that it prints
each() {
    started=0 passed=$(mktemp -d)
    for suite in $suites; do
        ( $1 "$suite"; [ $failed = 0 ]; touch "$passed/$suite" ) 2>&1 | sed -u "s/^/$suite: /" &
        started=$((started + 1))
        [ $((started % ${JOBS:-1})) != 0 ] || wait
    done
    wait
    for suite in $suites; do
        [ -e "$passed/$suite" ] || failed=1
    done
    rm -r "$passed"
}

parts=$(for step in $all; do ! is_step $step || echo $step; done)
if [ -n "$parts" ] || is_step made || is_step exchanged || is_step peers; then
    each tried
fi
! is_step exchanged || each checked
if is_step package || is_step wheel || is_step pipx; then
    rm -rf "$folder/release"
    mkdir "$folder/release"
    "$repository/tests/debians/release.py" "$program" "$folder/release"
    each installed
fi
exit $failed
