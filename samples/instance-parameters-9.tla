(* 3 parameters of the instance and 6 of the operator that it would bring are 9: refused with 5. *)

---- MODULE Winch ----
CONSTANT rating
Held(rope, step, slack, load, brake, order) == rope = slack /\ rating > load /\ brake
====

---- MODULE Deck ----
CONSTANT tons
Bent(trim, heel, swell) == INSTANCE Winch WITH rating <- tons + trim + heel + swell
====
