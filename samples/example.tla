\* The file with which paper 01 shows the listing program. The numbers of its names are not those
\* of first appearance, so they are given.
NAMES
MODULES M = 1
OPERATORS x = 2, F = 3

---- MODULE M ----
VARIABLE x
F(p) == p'
====
