"""Netlists as Yosys writes them: names of wires that it made, whether there is one clock, and how many checks there
are. The tests need no program."""

import unittest

from aig_verdicts.reading import names
from aig_verdicts.reading.text import netlist


class OfNames(unittest.TestCase):
    def test_shown(self):
        own = {"$past$sources/x.v:25$3$1": "past_q", "u0.$past$sources/x.v:25$3$1": "u0.past_q"}
        for wire, name in (
            ("$past$sources/x.v:25$3$1", "past_q"), ("$flatten\\u0.$past$sources/x.v:25$3$1", "u0.past_q"),
            ("$0$past$sources/x.v:25$3$1[0:0]$7", "past_q_next"), ("$past$sources/x.v:26$3$1", ""),
            ("$auto$clk2fflogic.cc:74:sample_control_edge$\\clk#sampled$1", "clk_before"),
            ("$auto$clk2fflogic.cc:86:sample_data$$0\\q[1:0]#sampled$1", "q_next_before"),
            ("$auto$clk2fflogic.cc:86:sample_data${4'0000\\a[3:0]}#sampled$1", ""), ("$auto$rtlil.cc:1:Not$3", ""),
            ("\\plain", "plain"), ("$0\\q[1:0]", "q_next"),
        ):
            self.assertEqual(names.shown_name(wire, own), name, wire)

    def test_hidden(self):
        own = {"$formal$s/x.v:3$1_EN": "when_0", "$formal$s/x.v:3$2_EN": "when_0", "$past$s/x.v:9$1$0": "past_q"}
        listed = ("wire 2 0 clk\nwire 4 0 $formal$s/x.v:3$1_EN\nwire 6 0 $formal$s/x.v:3$2_EN\n"
                  "wire 8 0 $past$s/x.v:9$1$0\nwire 10 1 $past$s/x.v:9$1$0\nwire 12 0 $x$7\nwire 14 1 $x$7\n")
        found = names.hidden_names(listed + "wire 16 1 $q$8\n", {"$x$7": [12, 12]}, {("$q$8", 1): "q_kept[3]"}, own)
        self.assertEqual(found, {
            16: "q_kept[3]", 4: "when_0", 6: "when_0_2", 8: "past_q[0]", 10: "past_q[1]", 12: "x_12[0]", 14: "x_12[1]"})


def cell(kind, connections, **parameters):
    outputs = ("Q", "Y")
    return {"type": kind, "parameters": parameters, "attributes": {}, "connections": connections,
            "port_directions": {port: "output" if port in outputs else "input" for port in connections}}


def module(cells, **inputs):
    ports = {name: {"direction": "input", "bits": bits} for name, bits in inputs.items()}
    return {"m": {"attributes": {}, "ports": ports, "cells": {str(k): it for k, it in enumerate(cells)},
                  "netnames": {}}}


class OfClocks(unittest.TestCase):
    def register(self, clock, edge="1", data=9):
        return cell("$dff", {"CLK": [clock], "D": [data], "Q": [data + 10]}, CLK_POLARITY=edge.zfill(32))

    def test_one(self):
        for wanted, cells in (
            (True, []), (True, [self.register(2)]), (True, [self.register(2, "0"), self.register(2, "0")]),
            (False, [self.register(2), self.register(2, "0")]), (False, [self.register(2), self.register(3)]),
            (False, [self.register(5)]), (False, [self.register("0")]), (False, [self.register(2, data=2)]),
            (False, [self.register(2), cell("$and", {"A": [2], "B": [3], "Y": [5]})]),
            (False, [self.register(2), cell("$ff", {"D": [3], "Q": [5]})]),
            (False, [self.register(2), cell("$dlatch", {"EN": [2], "D": [3], "Q": [5]})]),
            (True, [self.register(2), cell("$mem_v2", {"WR_CLK": [2, 3], "RD_CLK": ["x"]}, WR_CLK_ENABLE="01",
                                           WR_CLK_POLARITY="11", RD_CLK_ENABLE="0", RD_CLK_POLARITY="0")]),
            (False, [self.register(2), cell("$mem_v2", {"WR_CLK": [2, 3], "RD_CLK": ["x"]}, WR_CLK_ENABLE="11",
                                            WR_CLK_POLARITY="11", RD_CLK_ENABLE="0", RD_CLK_POLARITY="0")]),
        ):
            self.assertEqual(netlist.one_clock(module(cells, clk=[2], other=[3])), wanted, cells)

    def test_instances(self):
        """2^40 instances are counted without a walk through all of them."""
        def instance(of):
            return cell(of, {})

        modules = {f"m{k}": {"attributes": {}, "ports": {},
                             "cells": {"a": instance(f"m{k + 1}"), "b": instance(f"m{k + 1}")}}
                   for k in range(40)}
        modules["m40"] = {"attributes": {}, "ports": {},
                          "cells": {"c": cell("$assert", {}), "d": cell("$cover", {}), "e": cell("$assume", {})}}
        self.assertEqual(netlist.checks(modules, "m0"), 2 << 40)
