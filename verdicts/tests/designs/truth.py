"""The truth of each design: what `aig-verdicts` has to say of each assertion and cover. None of it is its own output.

A number is the length of the shortest run to a bad state, or to what a cover asks for. `holds` is for an assertion that
no run breaks, `never` for a cover that no run reaches, `vacuous` for an assertion under an `if` that is never true, or whose
assumptions no run of 20 frames keeps. `by` says who found it:

abc       ABC's bmc3 and pdr on gates that no pass of Yosys optimised, where each x is an input (truth_of_designs.py)
iverilog  Icarus Verilog ran all inputs of so many frames (truth_of_clocks.py)
smtbmc    yosys-smtbmc with z3: each run, and that no run of one frame less is there
hand      it follows from the text of the design: a note says how"""

from dataclasses import dataclass
from pathlib import Path
from typing import Dict, Sequence, Union

HERE = Path(__file__).resolve().parent
REPOSITORY = HERE.parent.parent.parent
Answer = Union[int, str]


@dataclass(frozen=True)
class Known:
    """A design and its truth: `files` from this folder, the top module, and an answer for each name.

    one_clock  whether a frame is a cycle of the one clock
    notes      texts that a note of the design has
    free       modules to leave out
    asserts    files of assertions that are put into a module
    simulated  the status of `aig-verdicts replay`: 5 where a simulator has another meaning
    """

    files: Sequence[str]
    rows: str
    by: str = "abc"
    one_clock: bool = True
    top: str = ""
    defines: Sequence[str] = ()
    include: Sequence[str] = ()
    notes: Sequence[str] = ()
    simulated: int = 0
    free: Sequence[str] = ()
    asserts: Sequence[str] = ()
    module: str = ""

    @property
    def name(self) -> str:
        return self.top or self.paths[0].stem

    @property
    def paths(self) -> Sequence[Path]:
        return [(REPOSITORY / file if file.startswith(("examples/", "tests/", "verdicts/")) else HERE / "known" / file) for file in self.files]

    @property
    def search(self) -> Sequence[Path]:
        return [HERE / "known" / folder for folder in self.include]

    @property
    def answers(self) -> Dict[str, Answer]:
        """The answers by the names of the table."""
        pairs = (word.rsplit("=", 1) for word in self.rows.split())
        return {name: int(answer) if answer.isdigit() else answer for name, answer in pairs}


# Each assertion of labels.v fails where n is the number of its instance, and n is T - 1 in frame T. `at` sees it a frame later.
_COLUMNS = [(side, i, j) for side in ("left", "right") for i in range(3) for j in range(2)]
_LABELS = {
    **{f"{side}.row[{i}].column[{j}].at": 3 * j + i + 2 for side, i, j in _COLUMNS},
    **{f"{side}.row[{i}].column[{j}].early": 4 * j + i + 1 for side, i, j in _COLUMNS},
    **{f"{side}.row[{i}].column[{j}].late": 9 if i + j == 2 else "holds" for side, i, j in _COLUMNS},
    **{f"{side}.row[{i}].column[{j}].first.whole": 6 - i for side, i, j in _COLUMNS if j == (side == "right")},
}

FREE_CLOCK = "a frame is the time between changes of clocks"
DESIGNS = [
    # x, and values that Verilog leaves open
    Known(["unknown_case.v"], "low=1 high=1 chosen=holds other=1 itself=holds stays=2 is_1=1"),
    Known(["unknown_item.v"], "never_both=holds first=holds second=holds unique_first=holds not_second=1 known=holds unknown=1 wild=1",
          simulated=5),  # what a full case leaves out keeps its value in a simulation
    Known(["unknown_registers.v"], """same=1 same_later=holds ones=1 ones_later=holds high=1 high_later=holds halves=1 off=1 zero=holds
                                      words=1 constant=holds"""),
    Known(["unknown_memory.v"], """out=1 wraps=1 written=holds not_written=1 in_rom=holds x_in_rom=1 nothing_in_rom=1 bit_in=holds
                                   bit_out=1 bit_out_1=1"""),
    Known(["unknown_quotient.v"], """back=holds small=holds all_ones=1 none=1 dividend=1 half=holds signed_back=holds sign=holds
                                     signed_zero=1 any=1"""),
    Known(["unknown_wires.v"], "off=1 itself=holds middle=holds ends=1 constant=holds still=2 unconnected=2",
          notes=["nothing is used but has no driver"]),
    # a value of two states is never equal to x
    Known(["unknown_compared.v"], "defined=holds not_x=holds parity=holds same=1 is_x=never", by="hand",
          notes=["unknown_compared.v:6, unknown_compared.v:7, unknown_compared.v:8, unknown_compared.v:10: compares with x"]),
    # clocks
    Known(["gated_clock.v"], "open=2 first=2 slow=2", by="abc, iverilog", one_clock=False, notes=[FREE_CLOCK]),
    Known(["closed_gate.v"], "closed=holds", by="abc, iverilog", one_clock=False, notes=[FREE_CLOCK]),
    Known(["chosen_clock.v"], "counts=4 follows=holds waits=8", by="abc, iverilog", one_clock=False, notes=[FREE_CLOCK]),
    Known(["clock_as_data.v"], "quiet=3 first=2", by="abc, iverilog", one_clock=False, notes=[FREE_CLOCK]),
    Known(["divided_clock.v"], "counts=holds high=4 low=2", by="abc, iverilog", one_clock=False, notes=[FREE_CLOCK]),
    Known(["both_edges.v"], "half=4 falls=holds never=4 order=holds", by="abc, iverilog", one_clock=False, notes=[FREE_CLOCK]),
    Known(["gating_cell.v"], "with_the_clock=holds without_the_clock=2 was_open=holds not_at_once=2 cut_alone=2", by="abc, iverilog", one_clock=False,
          notes=[FREE_CLOCK]),
    Known(["async_fifo.v"], "bound=holds empty_is=holds overflow=6 fills=4 late=9", one_clock=False, notes=[FREE_CLOCK]),
    Known(["async_reset.v"], "cleared=holds not_3=4 was_set=holds one=2 after=holds after_0=holds",
          notes=["async_reset.v:6, async_reset.v:7: asynchronous resets and latches follow their inputs once a frame"]),
    Known(["reset_block.v"], "in_reset=1 in_reset_1=holds not_3=5 go_a=2 not_in_reset=holds not_3_outside=5 go_a_outside=2", by="hand",
          notes=["asynchronous resets and latches follow their inputs once a frame"]),
    Known(["reset_follows.v"], "inside=2 outside=2", by="iverilog, hand"),
    # simulations keep the old value where a set or reset ends while the other is on
    Known(["set_reset.v"], "set_first=holds reset_first=holds never_both=2 alike=2 set_v=holds reset_v=holds kept_2=4 kept_3=3", by="iverilog", simulated=5,
          notes=["set_reset.v:6: a has an asynchronous set and reset", "set_reset.v:9: v has an asynchronous set and reset"]),
    Known(["reset_register.v"], "cleared=holds starts=1 not_7=3 unseen=holds sees=5", by="iverilog", top="reset_register"),
    Known(["reset_levels.v"], "counts=3 is_3=holds is_2=holds keeps=2 cleared=holds", by="iverilog", simulated=5,
          notes=["reset_levels.v:8: n has an asynchronous set and reset"]),
    Known(["latches.v"], "open=holds closed=holds not_2=1 sampled=holds three=3", notes=["latches.v:4: asynchronous resets and latches"]),
    # rows, conditions, assumptions, sources
    Known(["same_twice.v"], """u0.on=2 u1.on=2 u0.on_again=2 u1.on_again=2 u0.excluded=holds u1.excluded=holds equal=holds
                               equal_again=holds never=1 always_1=holds always_2=holds seen=2 seen_again=2 unseen=never"""),
    Known(["instances.v"], """five.below=5 g[0].of.below=holds g[1].of.below=5 three.below=holds five:instances.v:7=6
                              g[0].of:instances.v:7=holds g[1].of:instances.v:7=6 three:instances.v:7=holds"""),
    Known(["labels.v"], " ".join(f"{name}={answer}" for name, answer in _LABELS.items()), by="hand", top="labels"),
    Known(["loop_labels.v"], "twice[0][0]=1 twice[0][1]=3 twice[1][0]=2 twice[1][1]=4 seven[0]=8 twelve[1]=never down.inside[2]=3 down.inside[3]=4",
          by="hand"),
    Known(["nested.v"], "m.l.inside=1 k.l.inside=1"),
    Known(["many.v"], " ".join(f"many.v:9#{k}={2 if k % 10 == 9 else 'holds'}" for k in range(60))),
    Known(["conditions.v"], "nothing=vacuous something=3 whole=holds seen=never seen_1=2 at_clock=vacuous",
          notes=["conditions.v:9: no row"]),
    Known(["assumptions.v"], "not_both=holds not_2=3 not_in_a_row=holds back=2"),
    # n is 2 in the third frame, and there the assumptions contradict each other
    Known(["contradiction.v"], "reached=2 empty=vacuous", by="abc for reached, hand for empty"),
    Known(["past.v"], "early=2 moves=holds unguarded=2 twice=3 twice_later=holds stable=3 rise=3"),
    Known(["ranges.v"], "both_ends=2 same=holds bit_6=holds copied=2 shifted=4 first=3", top="ranges"),
    Known(["unsigned_address.v"], "all_same=holds of_2=holds stays=2 minus=2 other_word=2 shift=holds only_1=2 in_range=2"),
    Known(["pads.v"], "low=holds up=holds product=holds inverted=holds open=2 later=3"),
    Known(["old_names.v"], "same=holds low=2"),
    Known(["missing_bit.v"], "gone=holds below=holds not_11=4 odd=holds all=4"),
    Known(["loop_variables.v"], "few=holds odd=holds not_4=2 later=3 even=2", by="iverilog"),
    Known(["tasks.v"], "ordered=holds same=holds sums=holds at_most_2=holds no_overflow=4 equal=2 not_9=3", by="iverilog"),
    Known(["task_state.sv"], "works=holds ends=holds one_step=3 seven=2 rest=3", by="iverilog"),
    Known(["loop_counts.v"], "shifted=holds first=4 any=2 not_1=3 below=holds start=1", by="iverilog"),
    Known(["empty_item.v"], "nothing=holds second=holds third=holds always_1=1 keeps=holds z_0=holds z_1=1", by="iverilog"),
    Known(["selectors.v"], "one=holds two=holds three=holds four=holds not_two=1 bits=holds off=1", by="iverilog"),
    # each output of a module without a body is any value
    Known(["box.v"], "decimal=holds slow=4 top_bit=1 phase_0=1 unseen=2 itself=holds", by="hand",
          notes=["box.v:10: the outputs of module pll, which has no body, are free values", "box.v:11: the outputs of module ram, which has no body"]),
    Known(["left_box.v"], "small=1 counts=5 same=holds", by="hand", free=["multiplier"], top="left_box",
          notes=["left_box.v:9: the outputs of module multiplier, which is left out", "left_box.v:7: trace is a memory that nothing reads"]),
    # one of two counters is any value: what the other one does still holds
    Known(["free_signal.v"], "same=2 low_a=2 low_b=holds sum=holds even=2 gated=holds gated_too=2", by="hand", top="free_signal",
          free=["free_signal.u0.count", "free_signal.gate"],
          notes=["free_signal.v:1: u0.count is free: it has any value", "free_signal.v:8: gate is free: it has any value"]),
    Known(["deep_bug.v"], "far=30 locked=25 bound=holds"),
    Known(["included/left/part.v", "included/right/part.v"], "inner.one=holds inner.words=holds inner.not_33=1 two=holds wide=2 limit=2",
          top="right", defines=["LIMIT=8'h7f"], include=["included/common"]),
    # registers without an initial value: more frames than the solver looks at, or no induction
    Known(["unwritten_limit.v"], "kept=holds not_45=46 at_limit=51 above=never", by="abc, smtbmc"),
    Known(["twins.v"], "same=holds not_all=1 turned=2 apart=never", by="abc, smtbmc"),
    Known(["free_mode.v"], "short=42", by="abc, smtbmc"),
    Known(["even_after_reset.v"], "even=holds top=48", by="abc, smtbmc"),
    Known(["lamps.sv"], "safe=holds known=holds any_start=1 both_red=holds cars=4"),
    # what a team has in its code
    Known(["uart.v"], "idle=holds right=holds wrong=13 received=12"),
    Known(["axi_lite.v"], "answer_stays=holds dropped=5 no_answer_without=holds at_most_two=holds at_most_one=5 written=6"),
    Known(["round_robin.v"], "one_at_most=holds only_who_asks=holds works=holds within_3=holds within_2=4 never_3=holds"),
    Known(["crc.v"], "same=holds not_same=5 meets=5"),
    Known(["forwarding.v"], "r0_follows=holds r1_follows=holds stale=4 all_equal=4"),
    Known(["watchdog.v"], "bites=holds not_early=holds misses=13 bound=holds bitten=13"),
    Known(["hamming.v"], "mends=holds sees_two=holds no_false_alarm=holds hasty_changes=2 three=never two_seen=2"),
    Known(["divider.v"], "quotient=holds remainder=holds of_zero=holds strict_quotient=5 seven_by_two=5"),
    # concurrent assertions: the standard says what they mean. Frames are one more than edges
    Known(["sva_first.sv"], "reset_then_zero=holds counts=holds needs_past=2 not_past=2 rises=3 changes=3 begins_at_0=holds "
          "first_fall=2 stable_inputs=3 stable_count=2 unknown_rise=2 unknown_stable=2", by="hand"),
    Known(["sva_resets.sv"], "granted=holds never_off=3 is_off=holds after_reset=holds rises=2 falls=never grows=4 "
          "grows_in_time=holds", by="hand"),
    Known(["sva_negedge.sv"], "follows=holds not_follows=3 past=holds first_value=3 twice=holds changed=3", by="hand"),
    Known(["sva_bind.sv"], " ".join(f"{it}.rules.counts=holds {it}.rules.stays=holds {it}.rules.known=2 {it}.rules.wraps=8 "
                                    f"{it}.rules.below=holds" for it in ("one", "two")), by="hand"),
    # the width of a variable of a named type is not read for a simulator
    Known(["sva_states.sv"], "runs=holds from_idle=holds declared=holds unknown=3 waits=holds last_one=2 finished=4",
          by="hand", simulated=4),
    Known(["sva_widths.sv"], "wraps=holds wide=18 low_wraps=holds not_nine=holds nine=holds seven=2 sum=holds "
          "high=18", by="hand"),
    Known(["sva_clocks.sv"], "pulse=4 other=holds wrong=6", by="hand", one_clock=False, notes=[FREE_CLOCK]),
    Known(["sva_alone.v"], "after=5 u.moves=holds u:sva_alone.sva:4=5 u.wraps=6", by="hand", top="sva_alone",
          asserts=["sva_alone.sva"], module="alone_counter"),
    Known(["sva_vacuous.sv"], "three=vacuous jumps=vacuous both=vacuous steps=holds no_jump=never around=6", by="hand"),
    Known(["sva_sequences.sv"], "d.in_three=holds d.in_two=4 d.in_range=holds d.twice=holds d.only=holds "
          "h.stays=holds h.drops=holds h.held=holds h.again=6 l.whole=holds l.inside=holds l.first=holds l.within_three=holds "
          "l.nothing=holds l.if_else=holds l.same=holds l.both=holds r.each[0].served=holds r.each[0].asked=holds "
          "r.each[0].one=4 r.each[1].served=holds r.each[1].asked=holds r.each[1].one=4 r.alone=holds", by="hand",
          top="sva_sequences"),
    # the repository's
    Known(["examples/queue.v"], "queue.v:37=11 queue.v:38=holds", defines=["FORMAL"]),
    Known(["examples/decimal.v"], "never_13=holds same=holds", defines=["FORMAL"]),
    Known(["tests/designs/arbiter.v"], "arbiter.v:9=holds", defines=["FORMAL"], notes=["arbiter.v:12, arbiter.v:13: no row, for it asks for liveness"]),
    Known(["tests/designs/clocks.v"], "equal=2", defines=["FORMAL"], by="abc, iverilog", one_clock=False, notes=[FREE_CLOCK]),
    Known(["tests/designs/credit.v"], "balance=6 buffer.no_overflow=9", defines=["FORMAL"]),
    Known(["tests/designs/delayed.v"], "delayed.v:21=holds delayed.v:22=holds delayed.v:23=holds", defines=["FORMAL"]),
    Known(["tests/designs/edges.v"], "equal=2", defines=["FORMAL"], one_clock=False, notes=[FREE_CLOCK]),
    Known(["tests/designs/fifo.v"], "fifo.v:23=holds fifo.v:24=holds", defines=["FORMAL"]),
    Known(["tests/designs/hier.v"], "u1:hier.v:9=4 u2:hier.v:9=4", defines=["FORMAL"]),
    Known(["tests/designs/lock.v"], "lock.v:23=holds lock.v:24=holds", defines=["FORMAL"]),
    Known(["tests/designs/mutex.v"], "mutex.v:43=holds", defines=["FORMAL"]),
    Known(["tests/designs/order.v"], "order.v:9=1 order.v:10=1 order.v:11=1", defines=["FORMAL"]),
    Known(["tests/designs/pipe.v"], "pipe.v:16=holds", defines=["FORMAL"]),
    Known(["tests/designs/registers.v"], "even=holds not_10=1", defines=["FORMAL"]),
    Known(["tests/designs/reset.v"], "below_7=9", defines=["FORMAL"]),
    # no run has even one frame
    Known(["tests/designs/vacuous.v"], "is_zero=vacuous is_held=vacuous", defines=["FORMAL"], by="hand"),
    Known(["tests/designs/unwritten.v"], "unwritten.v:16=1 unwritten.v:17=1 unwritten.v:18=1 unwritten.v:19=2", defines=["FORMAL"]),
]
