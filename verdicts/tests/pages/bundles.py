"""Bundles that no tool made: each kind of row, and hostile text wherever a text may stand."""

import aig
from believed import judge_some as judge
from aig_verdicts.pages.page import Page, Results
from aig_verdicts.audit.row import Row
from aig_verdicts.audit.simulated import of_facts
from aig_verdicts.audit.table import Table
from believed import believed

HOSTILE = [
    "<script>window.owned=1;alert(1)</script>", "\"' onload=window.owned=1 x='", "]]>", "<!--", "-->", "&amp;&lt;",
    "\x00", "\x1b[2J", "\u202ereversed", "\ud800", "\ufffe", "</title></style></svg><img src=x onerror=window.owned=1>",
    "a" * 500, "é漢", "=1", "at", "a=b=c", "{{7*7}}", "javascript:alert(4)", "<style>*{display:none}</style>",
    " blanks  in it ", "`${window.owned=1}`", "<svg/onload=window.owned=1>", "//--><script src=//x>", "%3Cscript%3E",
    "\u2028\u2029", "\ufeff",
]
# A certificate of two claims over one latch.
CERTIFICATE = b"aag 1 1 0 0 0 2\n2\n2\n3\n"


def hostile_circuit(runs):
    """A shift register through latches with hostile names, and `runs` properties that all of them are 1."""
    names = [name.encode("utf-8", "surrogatepass").replace(b"\n", b"_") for name in HOSTILE]
    count = len(names)
    first = 2 * (count + 2)
    lines = [f"aag {2 * count} 1 {count} 0 {count - 1} {runs} 1", "2"]
    lines += [f"{2 * (at + 2)} {2 * (at + 1)}" for at in range(count)]
    lines += [str(first + 2 * (count - 2))] * runs + ["1"]
    lines += [f"{first + 2 * at} {first + 2 * (at - 1) if at else 4} {2 * (at + 3)}" for at in range(count - 1)]
    symbols = [b"i0 <input>"] + [b"l%d %s" % (at, name) for at, name in enumerate(names)]
    return "\n".join([*lines, ""]).encode() + b"\n".join([*symbols, b""])


class Bundle:
    """A manifest, rows and files, as a session has them; `page` is their page."""

    def __init__(self, runs=1):
        circuit = aig.Circuit(hostile_circuit(runs))
        self.files = {"circuit.aig": circuit.to("aig"), "sources/a.v": self.source().encode("utf-8", "surrogatepass")}
        self.rows = []
        self.witness = circuit.witness(["1"] * (len(HOSTILE) + 1)).reduced().text
        self.manifest = {"name": HOSTILE[0], "notes": list(HOSTILE), "versions": dict(enumerate(HOSTILE)), "sums": {}}

    @staticmethod
    def source():
        return "".join(f"assert ({text.strip()}); // {text}\r\n" for text in HOSTILE)

    def add(self, kind, name, by="", **files):
        """A row that was found by something."""
        at = len(self.rows)
        line = at % len(HOSTILE) + 1
        row = believed(Row(at, kind, name, "a.v", line, line, notes=[name]), by=by, frames=len(HOSTILE) + 1,
                       files={role: f"{at}.{role}" for role in files})
        self.files.update({f"{at}.{role}": data for role, data in files.items()})
        self.rows.append(row)
        return row

    def shown(self, by):
        """Files that show a verdict."""
        proof = b"0\n"
        return {"run": {"witness": self.witness, "shorter": proof}, "induction": {"base": b"", "step": proof},
                "certificate": {"certificate": CERTIFICATE, "proof": proof}, "bound": {"base": proof}, "": {}}[by]

    def each_kind(self):
        """Rows of each kind and verdict, with hostile names."""
        for kind in ("assert", "cover"):
            for at, name in enumerate(HOSTILE):
                by = ("run", "induction", "certificate", "bound", "")[at % 5]
                self.add(kind, name, by, **self.shown(by))
        never, unknown = self.rows[1], self.rows[6]
        self.add("condition", never.name, "induction", base=b"", step=b"").of = never.position
        self.add("condition", unknown.name).of = unknown.position
        return self

    def page(self, unfinished=True):
        times = {row.position: 1.25 for row in self.rows[::2]}
        table = Table(of_facts(self.manifest.get("simulated", {})).beside(judge(self.rows)))
        return Page(Results(self.manifest, self.rows, self.files.__getitem__, times), table, unfinished).html()
