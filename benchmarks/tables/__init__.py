"""Tables of the benchmarks. They are a package, as Debian's python3-tables has one of the same name."""
