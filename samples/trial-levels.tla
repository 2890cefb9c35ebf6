(* Trial lines of paper 01 that have a level: x, y variables, c constant. *)

---- MODULE Trial ----
CONSTANT c
VARIABLES x, y
Level0 == c + 3
Level1 == x + 2 * c
Level2 == x' + y > c
Level3 == [][x' > y + c]_x
Primed == c'                    \* 2
Enabled == ENABLED x'           \* 1
F(p) == 0
Dropped == F((x')')             \* 0: the argument is gone, faults and all
G(p, q) == [](p /\ q)           \* 4 at (2, 3) and at (2, 0)
Hidden == \EE z : z             \* 3
====
