"""Forgers: changes of a bundle, and what each is caught by. The sums are mended afterwards."""

from __future__ import annotations

import shutil

from bundles.common import row


def _drop(path, manifest):
    manifest["rows"] = [it for it in manifest["rows"] if it.get("name") != "two"]
    _drop_sums(manifest)


def _drop_constraints(path, manifest):
    del manifest["rows"][0]


def _constraints_twice(path, manifest):
    manifest["rows"].insert(0, manifest["rows"][0])


def _constraints_last(path, manifest):
    manifest["rows"].append(manifest["rows"].pop(0))


def _alive_for_an_assertion(path, manifest):
    it = row(manifest, "later")
    it.update(verdict="alive", by="", frames=4, result="undecided")
    del it["files"]
    _drop_sums(manifest)


def _left_out_with_files(path, manifest):
    row(manifest, "two").update(verdict="left out", result="left out")


def _left_out_that_holds(path, manifest):
    it = row(manifest, "two")
    it.update(verdict="left out", by="", frames=0, result="holds")
    del it["files"]
    _drop_sums(manifest)


def _constraints_left_out(path, manifest):
    it = manifest["rows"][0]
    it.update(verdict="left out", by="", frames=0)
    it.pop("files", None)
    _drop_sums(manifest)


def _drop_sums(manifest):
    used = {name for it in manifest["rows"] for name in it.get("files", {}).values()}
    for name in list(manifest["sums"]):
        if name.endswith((".wit", ".drat", ".aag")) and name not in used:
            del manifest["sums"][name]


def _holds_for_fails(path, manifest):
    """The proofs of `three` for `two`."""
    two, three = row(manifest, "two"), row(manifest, "three")
    two.update(verdict="unreachable", by="induction", frames=three["frames"], result="holds")
    two["files"] = {role: f"{two['position']}.{role}.drat" for role in ("base", "step")}
    for role in ("base", "step"):
        shutil.copy(path / three["files"][role], path / two["files"][role])
        manifest["sums"][two["files"][role]] = ""
    _drop_sums(manifest)


def _fails_for_holds(path, manifest):
    """The witness of `two` for `three`."""
    two, three = row(manifest, "two"), row(manifest, "three")
    three.update(verdict="confirmed", by="run", frames=two["frames"], result="fails")
    three["files"] = {"witness": f"{three['position']}.wit"}
    text = (path / two["files"]["witness"]).read_bytes()
    (path / three["files"]["witness"]).write_bytes(text.replace(b"b%d" % two["position"], b"b%d" % three["position"]))
    manifest["sums"][three["files"]["witness"]] = ""
    _drop_sums(manifest)


def _witness_of_another(path, manifest):
    _fails_for_holds(path, manifest)
    two, three = row(manifest, "two"), row(manifest, "three")
    shutil.copy(path / two["files"]["witness"], path / three["files"]["witness"])


def _holds_for_bound(path, manifest):
    """A bound is told as a proof for all frames."""
    it = row(manifest, "later")
    it.update(verdict="unreachable", result="holds")


def _longer_bound(path, manifest):
    it = row(manifest, "later")
    it.update(verdict="unreachable within 9", frames=9, result="holds within 9")


def _swap_names(path, manifest):
    one, two = row(manifest, "two"), row(manifest, "three")
    one["name"], two["name"] = two["name"], one["name"]


def _swap_rows(path, manifest):
    rows = manifest["rows"]
    rows[1], rows[2] = rows[2], rows[1]


def _swap_positions(path, manifest):
    one, two = row(manifest, "three"), row(manifest, "same")
    one["position"], two["position"] = two["position"], one["position"]


def _cover_for_assert(path, manifest):
    row(manifest, "two").update(kind="cover", result="reached")


def _assert_for_cover(path, manifest):
    row(manifest, "back").update(kind="assert", result="fails")


def _condition_of_another(path, manifest):
    next(it for it in manifest["rows"] if it["kind"] == "condition")["of"] = row(manifest, "three")["position"]
    row(manifest, "a_nothing")["result"], row(manifest, "three")["result"] = "holds", "vacuous"


def _condition_of_nothing(path, manifest):
    del next(it for it in manifest["rows"] if it["kind"] == "condition")["of"]


def _condition_far_away(path, manifest):
    next(it for it in manifest["rows"] if it["kind"] == "condition")["of"] = 10**9
    row(manifest, "a_nothing")["result"] = "holds"


def _not_vacuous(path, manifest):
    """The word of the table is not that of the rows."""
    row(manifest, "a_nothing")["result"] = "holds"


def _no_result(path, manifest):
    del row(manifest, "a_nothing")["result"]


def _twice(path, manifest):
    manifest["rows"].append(row(manifest, "three"))


def _path(path, manifest):
    row(manifest, "two")["files"]["witness"] = "../../etc/passwd"


def _absolute_path(path, manifest):
    row(manifest, "two")["files"]["witness"] = "/etc/passwd"


def _file_of_another(path, manifest):
    row(manifest, "two")["files"]["witness"] = row(manifest, "back")["files"]["witness"]


def _more_files(path, manifest):
    row(manifest, "two")["files"]["base"] = row(manifest, "later")["files"]["base"]


def _fewer_files(path, manifest):
    del row(manifest, "three")["files"]["step"]


def _no_proof(path, manifest):
    del manifest["sums"][row(manifest, "stops")["files"].pop("proof")]


def _longer_run(path, manifest):
    row(manifest, "two")["frames"] = 4


def _shorter_run(path, manifest):
    two = row(manifest, "two")
    two["frames"] = 2
    del manifest["sums"][two["files"].pop("shorter")]


def _no_frames(path, manifest):
    row(manifest, "later").update(frames=0, verdict="unreachable within 0", result="holds within 0")


def _frames_of_a_certificate(path, manifest):
    row(manifest, "stops")["frames"] = 5


def _unknown_way(path, manifest):
    row(manifest, "three")["by"] = "belief"


def _kind_of_constraints(path, manifest):
    it = row(manifest, "later")
    it.update(kind="constraints", name="", verdict="undecided", by="", frames=0)
    for part in ("files", "result"):
        del it[part]
    _drop_sums(manifest)


def _shorter_than_one(path, manifest):
    row(manifest, "two")["frames"] = 1


def _verdict_of_constraints(path, manifest):
    manifest["rows"][0].update(verdict="no run of 4 frames", frames=0)


def _bound_of_constraints(path, manifest):
    _as_shown(manifest["rows"][0], path, manifest, "bound", "unreachable within 4", base="alive.base.drat")


def _alive_of_a_property(path, manifest):
    later = row(manifest, "later")
    _as_shown(later, path, manifest, "alive", "no run of 4 frames", alive="3.drat")
    later["result"] = "undecided"


def _as_shown(it, path, manifest, by, verdict, **files):
    """A row with the proof of a bound in the place of its own."""
    for name in files.values():
        shutil.copy(path / "3.base.drat", path / name)
        manifest["sums"][name] = ""
    it.update(by=by, verdict=verdict, frames=4, files=files)
    _drop_sums(manifest)


def _place_without_file(path, manifest):
    row(manifest, "three")["file"] = ""


def _place_turned(path, manifest):
    row(manifest, "three")["first"] = 99


def _negative(path, manifest):
    row(manifest, "three")["frames"] = -1


def _true(path, manifest):
    row(manifest, "three")["frames"] = True


def _float(path, manifest):
    row(manifest, "three")["frames"] = 1.0


def _text_for_number(path, manifest):
    row(manifest, "three")["frames"] = "1"


def _null(path, manifest):
    row(manifest, "three")["position"] = None


def _name_with_nul(path, manifest):
    row(manifest, "three")["name"] = "three\0"


def _file_with_nul(path, manifest):
    row(manifest, "two")["files"]["witness"] += "\0"


def _lone_surrogate(path, manifest):
    row(manifest, "three")["name"] = "\ud800"


def _unknown_part(path, manifest):
    row(manifest, "three")["proved"] = True


def _unknown_part_of_all(path, manifest):
    manifest["trusted"] = True


def _no_sum(path, manifest):
    del manifest["sums"]["circuit.aig"]


def _sum_of_more(path, manifest):
    (path / "more.drat").write_bytes(b"0\n")
    manifest["sums"]["more.drat"] = ""


def _sum_of_a_path(path, manifest):
    manifest["sums"]["../every.verdicts/circuit.aig"] = ""


def _source_path(path, manifest):
    manifest["sources"] = ["../../../etc/passwd"]


def _place(path, manifest):
    row(manifest, "three")["last"] = -5


def _format(path, manifest):
    manifest["format"] = "aig-verdicts 4"


def _no_options(path, manifest):
    """Without options the circuit is one of AIGER, which has no sources."""
    manifest["options"] = {}


def _as_aiger(path, manifest):
    """As if the circuit were one of AIGER, where each property would be an assertion by its own name: then nothing is
    vacuous, and a cover that is never reached holds."""
    starts = {"cover": "cover:", "condition": "if:", "assert": ""}
    words = {"confirmed": "fails", "unreachable": "holds", "unreachable within 4": "holds within 4"}
    manifest["options"], manifest["sources"] = {}, []
    for name in ("sources/every.v", "yosys.ys"):
        del manifest["sums"][name]
    for it in manifest["rows"][1:]:
        it.update(kind="assert", name=starts[it["kind"]] + it["name"], result=words[it["verdict"]])
        it.pop("of", None)


def _nothing(path, manifest):
    """A circuit without properties: there is nothing that could fail."""
    (path / "circuit.aig").write_bytes(b"aag 0 0 0 0 0\n")
    del manifest["rows"][1:]
    _drop_sums(manifest)


# What each forger is caught by.
def _file_of_no_source(path, manifest):
    row(manifest, "three")["file"] = "every.v, which was compared, and all agrees"


def _macro_as_a_sentence(path, manifest):
    manifest["options"]["defines"] = ["DEBUG. All of this was compared, and is right"]


def _free_of_two_lines(path, manifest):
    manifest["options"]["free"] = ["every.q\n9 assertions: 9 hold; all checked by aig"]


def _name_of_words(path, manifest):
    manifest["name"] = "every. All of this was compared"


FORGERS = {
    _drop: "each once and in order", _drop_constraints: "each once and in order",
    _constraints_twice: "each once and in order",
    _constraints_last: "each once and in order", _alive_for_an_assertion: "verdict of b3",
    _left_out_with_files: "verdict of b9", _left_out_that_holds: "result of b9",
    _constraints_left_out: "verdict of constraints",
    _holds_for_fails: "step proof: step",
    _fails_for_holds: "prints 'not bad'", _witness_of_another: "for another property",
    _holds_for_bound: "verdict of b3",
    _longer_bound: "b3: aig refute: proof", _swap_names: "another kind or name", _swap_rows: "each once and in order",
    _swap_positions: "file '5.cert.aag' of b8", _cover_for_assert: "another kind or name",
    _assert_for_cover: "another kind or name",
    _condition_of_another: "b1 is of another row", _condition_of_nothing: "b1 is of no row",
    _condition_far_away: "b1 is of another row",
    _not_vacuous: "result of b0", _no_result: "result of b0", _twice: "a file belongs to two rows",
    _path: "file '../../etc/passwd'",
    _absolute_path: "file '/etc/passwd'", _file_of_another: "file '2.wit' of b9", _more_files: "files of b9",
    _no_proof: "files of b6",
    _fewer_files: "files of b8", _longer_run: "another number of frames", _negative: "frames of b8",
    _true: "frames of a row",
    _shorter_run: "another number of frames", _no_frames: "frames of b3", _frames_of_a_certificate: "frames of b6",
    _unknown_way: "of an unknown kind", _kind_of_constraints: "kind of b3", _place_without_file: "place of b8",
    _place_turned: "place of b8", _shorter_than_one: "files of b9", _verdict_of_constraints: "verdict of constraints",
    _bound_of_constraints: "kind of constraints", _alive_of_a_property: "kind of b3",
    _float: "frames of a row", _text_for_number: "frames of a row", _null: "position of a row",
    _name_with_nul: "another kind or name",
    _file_with_nul: "file '9.wit\\x00'", _lone_surrogate: "another kind or name", _unknown_part: "an unknown part",
    _unknown_part_of_all: "has other parts", _no_sum: "the sums are not", _sum_of_more: "the sums are not",
    _sum_of_a_path: "sums of MANIFEST.json", _source_path: "sources of MANIFEST.json", _place: "place of b8",
    _format: "is not of 'aig-verdicts 2'", _no_options: "options of MANIFEST.json",
    _file_of_no_source: "is in a file that is no source", _macro_as_a_sentence: "options of MANIFEST.json",
    _free_of_two_lines: "options of MANIFEST.json", _name_of_words: "name of MANIFEST.json",
    _as_aiger: "b1 has another kind", _nothing: "there is no assertion",
}
