"""What each node of a tree means, in words, with clauses of IEEE 1800-2017.

- Expressions: `operators`, `expressions`, `sampled`, `parts`, and `values`, which has what they share.
- Statements: `statements`, `choices`, `loops`, `routines`, `writes`, and `processes`, which has what they share.
- `words` are the values; `names` are signals, scopes and runs; `drivers` says which bits of a word are written."""
