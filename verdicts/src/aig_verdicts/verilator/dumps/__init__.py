"""All that knows Verilator: how it is run, how it writes its tree, and what the source has that the tree has lost. The
module `tree` has the result, without Verilator's spelling."""
