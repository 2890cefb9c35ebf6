(* Report is a constant module: any level may be put for its names, but not an action for one and a *)
(* temporal formula for another. Here `first` is written and `second` stands for itself.            *)
(* Refused with 21 at the INSTANCE field.                                                           *)

---- MODULE Report ----
CONSTANTS first, second, heading
Title(page) == heading + page
Body == first
====

---- MODULE Pump ----
CONSTANT heading
VARIABLES pump, level
Start == pump' = 1
second == [](level = 0)

Sheet == INSTANCE Report WITH first <- Start
====
