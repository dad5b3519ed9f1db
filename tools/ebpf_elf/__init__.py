"""Reads objects that compilers make for BPF. Nothing in an object is taken on trust: what doesn't fit together is refused by name."""
