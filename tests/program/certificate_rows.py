"""The rows of certificates.py: circuits and certificates, what they are together, and what is rejected of them."""

from library.certificate import strengthened
from library.circuits import TEXTS
from library.runs import refused

# A ring of three latches, of which the first starts at 1. The bad state is that the first two are 1. The certificate
# claims that no other two are 1.
RING = "aag 4 0 3 0 1 1\n2 6 1\n4 2\n6 4\n8\n8 4 2\n"
NO_TWO = "aag 5 3 0 0 2 2\n2\n4\n6\n8\n10\n8 6 2\n10 6 4\ni0 = 2\ni1 = 4\ni2 = 6\n"
RING_STRENGTHENED = "aag 8 0 3 3 5 1\n2 6 1\n4 2\n6 4\n8\n10\n12\n17\n8 4 2\n10 6 2\n12 6 4\n14 11 9\n16 14 13\n"
RING_BINARY = b"aig 8 0 3 3 5 1\n6 1\n2\n4\n8\n10\n12\n17\n\4\2\4\4\6\2\3\2\2\1"
RING_FORMULA = ("c aig cnf --certificate --property 0 \n"
                "c l 2 0 \nc l 3 1 \nc l 4 2 \nc b -9 0\nc b -14 1\np cnf 14 35\n-1 0\n-9 -14 0\n9 2 0\n9 -3 0\n9 -4 0\n"
                "-5 3 0\n-5 2 0\n5 -3 -2 0\n-6 4 0\n-6 2 0\n6 -4 -2 0\n-7 4 0\n-7 3 0\n7 -4 -3 0\n"
                "-8 -6 0\n-8 -5 0\n8 6 5 0\n-9 8 0\n-9 -7 0\n9 -8 7 0\n"
                "-10 4 0\n-10 2 0\n10 -4 -2 0\n-11 4 0\n-11 3 0\n11 -4 -3 0\n-12 3 0\n-12 2 0\n12 -3 -2 0\n"
                "-13 -11 0\n-13 -10 0\n13 11 10 0\n-14 13 0\n-14 -12 0\n14 -13 12 0\n")
# Without the second claim the step fails, from a state in which the last two latches are 1.
ONE_CLAIM = "aag 4 3 0 0 1 1\n2\n4\n6\n8\n8 6 2\ni0 = 2\ni1 = 4\ni2 = 6\n"
ONE_CLAIM_RUN = "1\nb0\n011\n\n\n.\n"
NO_CLAIM = "aag 0 0 0 0 0\n"

# A model with names, two properties, a gate out of order, a variable that nothing defines, and a constraint.
NAMED_MODEL = ("aag 7 2 2 1 2 2 1\n2\n4\n6 10 1\n8 4 8\n9\n10\n9\n3\n10 12 6\n12 4 2\n"
               "i0 req\nl1 state\nb1 oops\no0 seen\nc0 quiet\nc\nby hand\n")

# A name of the row, a certificate, a property, and the text of the strengthened circuit.
CIRCUITS = (
    ("no claim", NO_CLAIM, 0,
     "aag 7 2 2 1 2 1 1\n2\n4\n6 10 1\n8 4 8\n10\n10\n3\n10 12 6\n12 4 2\ni0 req\nl1 state\nc0 quiet\n"),
    ("by position", "aag 4 3 1 0 0 1\n2\n4\n6\n8 2 1\n6\ni0 mine\ni2 more\nl0 other\nb0 claim\n", 1,
     "aag 9 3 2 2 3 1 1\n2\n4\n16\n6 10 1\n8 4 8\n9\n16\n19\n3\n10 12 6\n12 4 2\n18 17 8\n"
     "i0 req\nl1 state\no0 oops\nc0 quiet\ni2 more\no1 claim\n"),
    ("by position, with more latches", "aag 5 1 3 0 1 1\n2\n4 6\n6 4\n8 10 8\n10\n10 8 2\nl2 last\nl0 not_read\n", 0,
     "aag 10 2 3 2 4 1 1\n2\n4\n6 10 1\n8 4 8\n16 18 16\n10\n18\n21\n3\n10 12 6\n12 4 2\n18 16 2\n20 19 11\n"
     "i0 req\nl1 state\nc0 quiet\nl2 last\n"),
    ("gates, negated literals and constants by name",
     "aag 6 4 1 0 1 1\n2\n4\n6\n8\n10 0 1\n12\n12 2 4\ni0 = 13\ni1 = 0\ni3 = 1\nl0 = 9\n", 0,
     "aag 10 3 2 2 4 1 1\n2\n4\n16\n6 10 1\n8 4 8\n10\n18\n21\n3\n10 12 6\n12 4 2\n18 13 0\n20 19 11\n"
     "i0 req\nl1 state\nc0 quiet\n"),
    ("one literal by several names", "aag 2 1 1 0 0 2\n2\n4 0\n2\n5\ni0 = 8\nl0 = 8\n", 0,
     "aag 9 2 2 3 4 1 1\n2\n4\n6 10 1\n8 4 8\n10\n8\n9\n19\n3\n10 12 6\n12 4 2\n16 11 9\n18 16 8\n"
     "i0 req\nl1 state\nc0 quiet\n"),
    ("outputs, as there is no property", "aag 1 1 0 2 0 0 1\n2\n3\n2\n3\no1 second\no0 first\nc0 held\n", 0,
     "aag 10 2 2 4 5 1 1\n2\n4\n6 10 1\n8 4 8\n10\n3\n2\n2\n21\n3\n10 12 6\n12 4 2\n16 11 2\n18 16 3\n20 18 3\n"
     "i0 req\nl1 state\nc0 quiet\no2 second\no1 first\no3 held\n"),
    ("properties, and outputs that are none", "aag 1 1 0 1 0 1\n2\n3\n2\no0 output\nb0 claim\n", 1,
     "aag 8 2 2 2 3 1 1\n2\n4\n6 10 1\n8 4 8\n9\n2\n17\n3\n10 12 6\n12 4 2\n16 8 3\n"
     "i0 req\nl1 state\no0 oops\nc0 quiet\no1 claim\n"),
    ("a constraint alone", "aag 1 1 0 0 0 0 1\n2\n2\n", 0,
     "aag 8 2 2 2 3 1 1\n2\n4\n6 10 1\n8 4 8\n10\n3\n17\n3\n10 12 6\n12 4 2\n16 11 2\ni0 req\nl1 state\nc0 quiet\n"),
    ("justice and fairness, which are ignored", "aag 1 1 0 0 0 1 0 1 1\n2\n2\n1\n3\n2\nj0 live\nf0 fair\n", 0,
     "aag 8 2 2 2 3 1 1\n2\n4\n6 10 1\n8 4 8\n10\n2\n17\n3\n10 12 6\n12 4 2\n16 11 3\ni0 req\nl1 state\nc0 quiet\n"),
    ("own latches with all resets", "aag 5 1 3 0 1 1\n2\n4 10\n6 5 1\n8 7 8\n10\n10 4 2\ni0 = 3\nl0 =2\nl2 x = 2\n", 0,
     "aag 12 2 5 2 4 1 1\n2\n4\n6 10 1\n8 4 8\n16 22\n18 17 1\n20 19 20\n10\n22\n25\n3\n10 12 6\n12 4 2\n22 16 3\n24 23 11\n"
     "i0 req\nl1 state\nc0 quiet\nl2 =2\nl4 x = 2\n"),
    ("a comment on MAPPING beside names", "aag 1 1 0 0 0 1\n2\n2\ni0 = 8\nc\nMAPPING 1\n2 2\n", 0,
     "aag 8 2 2 2 3 1 1\n2\n4\n6 10 1\n8 4 8\n10\n8\n17\n3\n10 12 6\n12 4 2\n16 11 9\ni0 req\nl1 state\nc0 quiet\n"),
    ("another comment", "aag 0 0 0 1 0\n0\nc\nno MAPPING\n", 0,
     "aag 8 2 2 2 3 1 1\n2\n4\n6 10 1\n8 4 8\n10\n0\n17\n3\n10 12 6\n12 4 2\n16 11 1\ni0 req\nl1 state\nc0 quiet\n"),
)

# A certificate whose three inputs and latch have the literals 2, 4, 6 and 8. A name of the row; the symbols of those
# that are shared, by `= LIT`; the lines of the comment that say the same by a mapping.
THREE_AND_ONE = "aag 6 3 1 0 2 2\n2\n4\n6\n8 2 1\n10\n12\n10 6 3\n12 8 5\n"
MAPPINGS = (
    ("the entries at their positions", "i0 = 2\ni1 = 4\nl0 = 6\n", "MAPPING 3\n2 2\n4 4\n8 6\n"),
    ("another order", "i0 = 8\ni1 = 2\ni2 = 4\nl0 = 6\n", "MAPPING 4\n2 8\n4 2\n6 4\n8 6\n"),
    ("another order of the lines", "i0 = 8\ni1 = 2\ni2 = 4\nl0 = 6\n", "MAPPING 4\n8 6\n6 4\n2 8\n4 2\n"),
    ("one of four", "l0 = 6\n", "MAPPING 1\n8 6\n"),
    ("the model's literal is negated", "i0 = 9\n", "MAPPING 1\n2 9\n"),
    ("the certificate's literal is negated", "i0 = 9\nl0 = 6\n", "MAPPING 2\n3 8\n9 7\n"),
    ("both literals are negated", "i0 = 8\nl0 = 6\n", "MAPPING 2\n3 9\n9 7\n"),
    ("gates", "i0 = 13\ni1 = 10\n", "MAPPING 2\n2 13\n5 11\n"),
    ("constants", "i0 = 0\ni1 = 1\ni2 = 0\n", "MAPPING 3\n2 0\n4 1\n7 1\n"),
    ("one literal for two entries", "i0 = 8\nl0 = 8\n", "MAPPING 2\n2 8\n8 8\n"),
    ("lines before it", "i0 = 8\n", "\nby hand\n MAPPING 7\nno MAPPING\nMAPPIN\nMAPPING 1\n2 8\n"),
    ("lines after it", "i0 = 8\n", b"MAPPING 1\n2 8\n4 99\nMAPPING x\n\xff\n"),
    ("no newline at the end", "i0 = 8\ni1 = 2\n", "MAPPING 2\n2 8\n4 2"),
)

# The parts of a certificate's property, and which of three latches is 1 where one fails: the first is the model's
# property, the second a property of the certificate, and the third its constraint, negated.
PARTS = {"property": "100", "claim": "010", "constraint": "001"}
THREE_CLAIMS = "aag 3 0 3 0 0 1 1\n2 2\n4 4\n6 6\n4\n7\n"

# What is refused of a certificate for NAMED_MODEL: a name of the row, the certificate, and the message.
CERTIFICATES = (
    ("an empty file", "", "text at 0"),
    ("a text that is cut off", "aag 1 1 0 0 0\n2", "text at 15"),
    ("a cycle", TEXTS["cycle"], "cycle 2"),
    ("a wrong reset", "aag 2 1 1 0 0\n2\n4 2 2\n", "reset 2"),
    ("a reset that is another latch", "aag 2 0 2 0 0\n2 2\n4 4 2\n", "reset 2"),
    ("an undefined variable", "aag 1 0 0 1 0\n2\n", "undefined 1"),
    ("two definitions", "aag 2 2 0 0 0\n2\n2\n", "redefined 1"),
    ("an odd definition", "aag 1 1 0 0 0\n3\n", "definition"),
    ("a literal over M", "aag 1 1 0 1 0\n2\n4\n", "range"),
    ("wrong counts", "aag 1 1 1 0 0\n", "counts"),
    ("a number over its limit", "aag 4194304 0 0 0 0\n", "limit"),
    ("a mapping of no input", NO_CLAIM + "c\nMAPPING 1\n2 2\n", "comment"),
    ("a comment that begins with MAPPING", NO_CLAIM + "c\nMAPPINGS", "comment"),
    ("a mapping beside the name of an output", "aag 1 1 0 1 0\n2\n2\no0 = 2\nc\nMAPPING\n", "comment"),
    ("a variable over M", "aag 1 1 0 0 0\n2\ni0 = 16\n", "symbol i0"),
    ("a variable that nothing defines", "aag 1 1 0 0 0\n2\ni0 = 14\n", "symbol i0"),
    ("a negated literal that nothing defines", "aag 1 1 0 0 0\n2\ni0 = 15\n", "symbol i0"),
    ("no literal", "aag 1 1 0 0 0\n2\ni0 = \n", "symbol i0"),
    ("a leading zero", "aag 1 1 0 0 0\n2\ni0 = 02\n", "symbol i0"),
    ("two zeros", "aag 1 1 0 0 0\n2\ni0 = 00\n", "symbol i0"),
    ("a sign", "aag 1 1 0 0 0\n2\ni0 = +2\n", "symbol i0"),
    ("a minus", "aag 1 1 0 0 0\n2\ni0 = -2\n", "symbol i0"),
    ("a blank after it", "aag 1 1 0 0 0\n2\ni0 = 2 \n", "symbol i0"),
    ("two blanks", "aag 1 1 0 0 0\n2\ni0 =  2\n", "symbol i0"),
    ("a name", "aag 1 1 0 0 0\n2\ni0 = req\n", "symbol i0"),
    ("a number that is 2 in 32 bits", "aag 1 1 0 0 0\n2\ni0 = 4294967298\n", "symbol i0"),
    ("a number that is 2 in 64 bits", "aag 1 1 0 0 0\n2\ni0 = 18446744073709551618\n", "symbol i0"),
    ("a digit that is none in ASCII", "aag 1 1 0 0 0\n2\ni0 = \u0662\n".encode(), "symbol i0"),
    ("bytes that are no text", b"aag 1 1 0 0 0\n2\ni0 = \xff\n", "symbol i0"),
    ("a latch", "aag 1 0 1 0 0\n2 2\nl0 = 99\n", "symbol l0"),
    ("the second input first", "aag 3 2 1 0 0\n2\n4\n6 6\nl0 = x\ni0 = 2\ni1 = x\n", "symbol i1"),
    ("the first of two inputs", "aag 2 2 0 0 0\n2\n4\ni1 = x\ni0 = y\n", "symbol i0"),
    ("input 12", "aag 13 13 0 0 0\n" + "".join(f"{2 * at}\n" for at in range(1, 14)) + "i12 = 14\n", "symbol i12"),
    ("the second latch", "aag 3 0 2 0 0\n4 4\n6 6\nl1 = 7.\nl0 = 7\n", "symbol l1"),
    ("a name before a property", "aag 1 1 0 0 0\n2\ni0 = 16\nc\nMAPPING\n", "symbol i0"),
)

# What is rejected of the comment of a certificate with two inputs and a gate, the literals 2, 4 and 6, and a variable 4
# that nothing defines: a name of the row, and the comment.
TWO_AND_A_GATE = "aag 4 2 0 0 1\n2\n4\n6 4 2\n"
COMMENTS = (
    ("no number", "MAPPING"), ("no number, and a blank", "MAPPING "),
    ("no number after a line", "by hand\nMAPPING\n2 2\n"),
    ("two blanks", "MAPPING  1\n2 2\n"), ("a tab", "MAPPING\t1\n2 2\n"), ("a leading zero", "MAPPING 01\n2 2\n"),
    ("a sign", "MAPPING +1\n2 2\n"), ("a minus", "MAPPING -1\n2 2\n"), ("a blank at the end", "MAPPING 1 \n2 2\n"),
    ("a carriage return", "MAPPING 1\r\n2 2\r\n"), ("a word", "MAPPING one\n2 2\n"), ("more", "MAPPING 1 2\n2 2\n"),
    ("2^32 and 1", "MAPPING 4294967297\n2 2\n"), ("2^64 and 1", "MAPPING 18446744073709551617\n2 2\n"),
    ("many digits", "MAPPING " + "1" * 5000 + "\n2 2\n"), ("4294967295 lines are missing", "MAPPING 4294967295"),
    ("4294967294 lines are missing", "MAPPING 4294967295\n2 2\n"), ("both lines are missing", "MAPPING 2\n"),
    ("a line is missing", "MAPPING 2\n2 2\n"), ("a line is missing, without a newline", "MAPPING 2\n2 2"),
    ("an empty line", "MAPPING 2\n2 2\n\n4 4\n"), ("one number", "MAPPING 1\n2\n"),
    ("three numbers", "MAPPING 1\n2 2 2\n"),
    ("no number before a blank", "MAPPING 1\n 2\n"), ("no number after a blank", "MAPPING 1\n2 \n"),
    ("two blanks in a pair", "MAPPING 1\n2  2\n"), ("a tab in a pair", "MAPPING 1\n2\t2\n"),
    ("a blank before a pair", "MAPPING 1\n 2 2\n"), ("a blank after a pair", "MAPPING 1\n2 2 \n"),
    ("a carriage return after a pair", "MAPPING 1\n2 2\r\n"), ("a leading zero of its own", "MAPPING 1\n02 2\n"),
    ("a leading zero of the model's", "MAPPING 1\n2 02\n"), ("a sign of its own", "MAPPING 1\n+2 2\n"),
    ("a minus of the model's", "MAPPING 1\n2 -2\n"), ("a name", "MAPPING 1\ni0 2\n"),
    ("an equals sign", "MAPPING 1\n2 = 2\n"),
    ("a byte that is no text", b"MAPPING 1\n2 \xff\n"), ("a zero byte", "MAPPING 1\n2 2\0\n"),
    ("its constant", "MAPPING 1\n0 0\n"), ("its gate", "MAPPING 1\n6 2\n"), ("its gate, negated", "MAPPING 1\n7 2\n"),
    ("its variable that nothing defines", "MAPPING 1\n8 2\n"), ("its variable over M", "MAPPING 1\n10 2\n"),
    ("a variable of the model that nothing defines", "MAPPING 1\n2 14\n"), ("that, negated", "MAPPING 1\n2 15\n"),
    ("a variable over the model's M", "MAPPING 1\n2 16\n"), ("its literal is 2 in 32 bits",
                                                             "MAPPING 1\n4294967298 2\n"),
    ("the model's literal is 2 in 32 bits", "MAPPING 1\n2 4294967298\n"), ("a line twice", "MAPPING 2\n2 2\n2 2\n"),
    ("two lines of an input", "MAPPING 2\n2 2\n2 4\n"), ("two lines of an input, negated", "MAPPING 2\n2 2\n3 3\n"),
    ("a second line that is wrong", "MAPPING 2\n2 2\n4 x\n"),
)

# How each command is asked, after the certificate and before the model, and after the model.
COMMANDS = (("strengthen --to aag", ""), ("strengthen --to aig", ""), ("cnf", ""), ("refute", " proof"),
            ("witness --model found", ""))

# Arguments that are rejected.
WORDS = (
    "cnf --certificate claims --frames 2 model", "cnf --certificate claims --step model",
    "cnf --certificate claims --frames 2 --step model", "cnf --certificate claims", "cnf model",
    "cnf --certificate model",
    "cnf --certificate claims --certificate claims model", "cnf --certificate claims --property -1 model",
    "cnf --certificate claims model proof", "refute --certificate claims model", "refute model proof",
    "refute --certificate claims --frames 2 model proof", "refute --certificate claims --step proof model proof",
    "refute --certificate claims --frames 2 --step proof model proof", "refute --step proof model proof",
    "witness --certificate claims model",
    "witness --certificate claims model proof", "witness --certificate claims --model found model proof",
    "witness --certificate claims --model found --frames 1 model", "witness --certificate claims --frames 1 model",
    "witness --certificate claims --model found --step model", "witness --certificate claims --property 0 model",
    "strengthen --certificate claims model", "strengthen --to aag model", "strengthen --to aag --certificate claims",
    "strengthen --to Aag --certificate claims model", "strengthen --to aag --certificate claims --frames 1 model",
    "strengthen --to aag --certificate claims --property model", "strengthen --to aag --certificate claims model proof",
    "check --certificate claims model proof", "toaig --certificate claims --to aag model",
)

# Two latches that are 1 in turn, and a certificate by position with a latch of its own, which goes along with the
# second.
IN_TURN = "aag 3 0 2 0 1 1\n2 3\n4 5 1\n6\n6 4 2\n"
GOES_ALONG = "aag 6 0 3 0 3 2 1\n2 0\n4 0\n6 7 1\n8\n10\n13\n8 5 3\n10 6 2\n12 7 3\n"

# Models and certificates that are changed, and the bytes that come in the place of each.
CHANGED = ((RING, NO_TWO), (IN_TURN, GOES_ALONG))
CHANGES = b"\n 0268=c"
