(* What designers wrote: a step of the pump, and something that always holds. The first speaks of a *)
(* pair of states, the second of a whole behaviour; together they have no meaning. Refused with 12  *)
(* at Spec.                                                                                          *)

---- MODULE Pump ----
VARIABLES pump, level
Start == pump' = 1
Dry == level = 0
Spec == Start /\ []Dry
====
