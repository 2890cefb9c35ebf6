(* Module N of paper 01 with its action under ENABLED: D has level 3, and may be instanced whatever *)
(* of level 0 is put for K.                                                                         *)

---- MODULE N ----
CONSTANT K(_, _)
VARIABLE u
D == []K(ENABLED u', []u)
====

---- MODULE User ----
CONSTANT K(_, _)
VARIABLE u
I == INSTANCE N
First == INSTANCE N WITH K(a, b) <- a
Second == INSTANCE N WITH K(a, b) <- b
====
