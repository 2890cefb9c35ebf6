(* The parameters of an instance and those of an operator that it brings are added up, and so are *)
(* those of an instance and of an operator that it replaces: 2 and 6 are 8.                       *)

---- MODULE Winch ----
CONSTANTS rating, Pull(_, _, _, _, _, _)
VARIABLE drum
Haul(rope, step, slack, load, brake, order) ==
    rating > Pull(rope, step, slack, load, brake, order) /\ drum' = drum + step
Slow(rope, step, slack, load, brake, order) ==
    rating > Pull(rope, step, slack, load, brake, order) + drum
====

---- MODULE Deck ----
CONSTANT tons
VARIABLE port
Bent(trim, heel) == INSTANCE Winch WITH
    rating <- tons + trim,
    drum <- port,
    Pull(rope, step, slack, load, brake, order) <- load * heel + rope * step + slack
Even == Bent(0, 0)!Haul(port, 1, 0, 3, 0, 0)                        \* 2
Heeled == Bent!Slow(0, []port, port, 1, 0, 3, port', port'')        \* 3: brake and order are dropped, faults and all
====
