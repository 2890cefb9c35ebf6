(* The same report of two temporal formulas, and one of two actions: lawful. *)

---- MODULE Report ----
CONSTANTS first, second, heading
Title(page) == heading + page
Body == first
====

---- MODULE Pump ----
CONSTANT heading
VARIABLES pump, level
Start == pump' = 1
second == [](level = 0)

Sheet == INSTANCE Report WITH first <- [][Start]_pump
Steps == INSTANCE Report WITH first <- Start, second <- level' = level
====
