(* The same pump: every step is a start or leaves the pump alone, and the hold is always dry. *)

---- MODULE Pump ----
VARIABLES pump, level
Start == pump' = 1
Dry == level = 0
Spec == [][Start]_pump /\ []Dry
Either(a, b) == a /\ b          \* 4 at (2, 3)
Apart(a, b) == ENABLED a /\ b   \* 3 at (2, 3)
====
