# Mounts the repository, the folder of run_debians.sh and that of the program below a root, and takes the first four words
# of a script that sources this file: ROOT, REPOSITORY, FOLDER and PROGRAM. `inside` runs a command there, with the
# AIG_TEST_SECONDS of the caller.
root=$1 program=/mnt/$(basename "$4")
mkdir -p "$root/aig" "$root/folder"
mount --bind "$2" "$root/aig" && mount --bind "$3" "$root/folder" && mount --bind "$(dirname "$4")" "$root/mnt" &&
    mount -t proc proc "$root/proc" && mount -t devpts -o newinstance,ptmxmode=666 devpts "$root/dev/pts" || exit 1
shift 4
failed=0

inside() {
    echo "-- $*"
    chroot "$root" env -i HOME=/root LANG=C.UTF-8 DEBIAN_FRONTEND=noninteractive PYTHONPYCACHEPREFIX=/root/pycache \
        "PATH=${path:-}/usr/local/sbin:/usr/local/bin:/usr/sbin:/usr/bin:/sbin:/bin" "AIG_PROGRAM=${named:-$program}" \
        "AIG_TEST_SECONDS=${AIG_TEST_SECONDS:-120}" "$@"
}
