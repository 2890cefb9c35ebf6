(* A trial line of paper 01 that is not level-correct: refused with 12. *)

---- MODULE Trial ----
VARIABLES x, y
G(p, q) == [](p /\ q)
Bad == G(x', 0)
====
