"""The library for C: its header, its symbols, and programs over it in C and C++, under sanitizers and valgrind."""

NEEDS = ("library",)
