(* The definitions of module Dredge of relation.tla, brought and own, as the expansion query  *)
(* gives them. Their cards are those of relation.tla.                                          *)

---- MODULE Dredge ----
CONSTANT places, deeper
VARIABLE depths
Steeper_Pred(p0, p1, p2) == op60(p1, deeper) > op60(p2, deeper) + p0
Steeper_Inverse(p0, p1, p2) == op60(p2, deeper) > op60(p1, deeper) + p0
Steeper_SetFunc(p0, p1) == bind135 x0 \in op58(depths, p0) : op60(p1, deeper) > op60(x0, deeper) + p0
Steeper_Domain(p0) == bind135 x0 \in places : \E x1 \in op58(depths, p0) : op60(x0, deeper) > op60(x1, deeper) + p0
Steeper_Range(p0) == bind135 x0 \in op58(depths, p0) : \E x1 \in places : op60(x1, deeper) > op60(x0, deeper) + p0
Steeper_Image(p0, p1, p2) == \E x0 \in p1 : op60(x0, deeper) > op60(p2, deeper) + p0
Steeper_Total(p0) == \A x0 \in places : op55(x0, bind135 x1 \in places : \E x2 \in op58(depths, p0) : op60(x1, deeper) > op60(x2, deeper) + p0)
Slope == \A x0 \in places : op55(x0, bind135 x1 \in places : \E x2 \in op58(depths, 3) : op60(x1, deeper) > op60(x2, deeper) + 3)
Next(p0, p1) == op60(p0, deeper) > op60(p1, deeper) + 1
====

