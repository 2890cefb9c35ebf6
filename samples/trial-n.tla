(* Module N of paper 01: in D an action and a temporal formula stand side by side, so D is 4. *)
(* Refused with 12 at D; the instance is not looked at.                                             *)

---- MODULE N ----
CONSTANT K(_, _)
VARIABLE u
D == []K(u', []u)
====

---- MODULE User ----
VARIABLE u
I == INSTANCE N WITH K(a, b) <- a
====
