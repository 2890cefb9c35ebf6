(* An action for slack and a temporal formula for brake: each is taken by itself, and they clash. *)

---- MODULE Winch ----
CONSTANT rating
Held(rope, step, slack, load, brake, order) ==
    rope = slack /\ rating > load /\ brake
====

---- MODULE Deck ----
CONSTANT tons
VARIABLES drum, hook, lever
INSTANCE Winch WITH rating <- tons
Paid == Held(drum, 1, drum', hook, lever, lever)                    \* 2
Kept == Held(drum, 1, 0, hook, <>(lever = 0), lever)                \* 3
Both == Held(drum, 1, drum', hook, <>(lever = 0), lever)            \* 4: refused with 12
====
