(* 3 parameters of the instance and 6 of the operator that is replaced are 9: refused with 5, *)
(* though what the instance would bring has 4.                                                *)

---- MODULE Winch ----
CONSTANTS rating, Pull(_, _, _, _, _, _)
Held(load) == rating > Pull(0, 1, 2, load, 4, 5)
====

---- MODULE Deck ----
CONSTANT tons
Bent(trim, heel, swell) == INSTANCE Winch WITH
    rating <- tons + trim,
    Pull(rope, step, slack, load, brake, order) <- load * heel + swell
====
