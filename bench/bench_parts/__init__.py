"""What the benches share: the program, traces of its runs, and workloads."""
