# Installs the Debian package or the wheel of a release by the lines of README, or the wheel by pipx as FLOW says, each
# where nothing else is installed, and types what README, FLOW and examples/README show (run_debians.sh). FLOW names a
# compiler, for drat2lrat alone.
# usage: installed.sh ROOT REPOSITORY FOLDER PROGRAM package|wheel|pipx
pages=$2
. "$2/tests/debians/mounted.sh"

inside apt-get update > /dev/null || exit 1
echo 'APT::Get::Assume-Yes "true";' > "$root/etc/apt/apt.conf.d/90yes"
cp -r "$root/../release" "$root/root/release"
lines=$(sed -n '/^    apt install yosys/,/^    python3 -m venv/s/^    //p' "$pages/README.md")
case $1 in
package)
    typed=$(grep -om1 'apt install \./aig_[^`]*' "$pages/README.md")
    named=/usr/bin/aig
    ;;
wheel)
    typed=$lines
    named=/root/release/env/bin/aig path=/root/release/env/bin:
    ;;
pipx)
    # pipx fetches a newer pip first; Debian's own one will do where there is no way to PyPI
    typed="export PIP_FIND_LINKS=/usr/share/python-wheels
$(echo "$lines" | sed -n '/^apt/s/python3-venv/pipx/p')
$(tr '\n' ' ' < "$pages/verdicts/docs/FLOW.md" | grep -o 'pipx install [^`]*')"
    named=/root/.local/bin/aig path=/root/.local/bin:
    ;;
esac
inside sh -ec "cd /root/release
$typed" > "$root.log" 2>&1 || failed=1
inside sh -c 'mkdir /root/demo && cd /root/demo && aig-verdicts demo; [ $? = 5 ]' || failed=1
[ $1 != package ] || inside diff -r /aig/examples /usr/share/doc/aig/examples || failed=1
inside python3 /aig/tests/tour.py "$named" || failed=1
inside apt-get install -qy g++ >> "$root.log" 2>&1 || failed=1
inside python3 /aig/tests/run_tools.py --part flow "$named" || failed=1
exit $failed
