(* A trial line of paper 01 as L5 of paper 02 has it: not level-correct, refused with 12. *)

---- MODULE Trial ----
VARIABLES x, y
G(p, q) == [](p /\ q)
Bad == G(x', []y)
====
