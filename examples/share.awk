# Names the inputs and latches of a certificate that are those of a circuit, so that `aig` takes them for these.
# usage: aig info --names CIRCUIT > NAMES; awk -f share.awk NAMES CLAIMS.aag > CERTIFICATE.aag
#
# An input or latch of CLAIMS.aag is one of CIRCUIT if a word of its symbol is a word of that one's symbol: its symbol
# becomes `= LIT`. Standard error lists the others, which are the certificate's own.

FNR == NR && ($1 == "i" || $1 == "l") {
    for (k = 4; k <= NF; k++)
        literal[$k] = $3
}
FNR == NR { next }
in_comment { print; next }

/^[il][0-9]+ / {
    for (k = 2; k <= NF; k++)
        if ($k in literal) {
            print $1 " = " literal[$k]
            next
        }
    print "own: " $0 > "/dev/stderr"
}
$0 == "c" { in_comment = 1 }
{ print }
