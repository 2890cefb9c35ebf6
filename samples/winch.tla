(* Winch operators carry six values. Between them the four have every mask that a card of an      *)
(* accepted file may have: a value that is not used, one at any level but 4, no temporal formula, *)
(* no action, neither of the two.                                                                 *)

---- MODULE Winch ----
CONSTANT rating

\* 0; any two of rope, slack, load and brake clash, step and order are not used
Held(rope, step, slack, load, brake, order) ==
    rope = slack /\ rating > load /\ brake

\* 1; what stands under ENABLED may be an action and does not raise the level; slack, load and brake clash
Ready(rope, step, slack, load, brake, order) ==
    ENABLED (order /\ rope' = rope + step) /\ rating > load + slack /\ brake

\* 2: rope is primed, and beside an action there is no temporal formula
Haul(rope, step, slack, load, brake, order) ==
    order /\ rope' = rope + step /\ rating > load + slack /\ UNCHANGED brake

\* 3: beside a temporal formula there is no action, but the fair one
Watch(rope, step, slack, load, brake, order) ==
    [](rating > load + slack) /\ WF_rope(order) /\ (brake ~> rope = 0)
====

---- MODULE Deck ----
CONSTANT tons
VARIABLES drum, hook, lever
Port == INSTANCE Winch WITH rating <- tons

Rest == Port!Held(drum, 1, 0, hook, lever, lever')                  \* 1: order is not used
Step == Port!Haul(drum, 1, 0, hook, lever, lever' = 1)              \* 2
Go == Port!Held(drum, 1, 0, hook, Step, Step)                       \* 2: one action
Guard == Port!Held(drum, 1, 0, []hook, <>(lever = 0), Step)         \* 3: two temporal formulas
Able == Port!Ready(drum, 1, 0, hook, <>(lever = 0), Step)           \* 3: order is an action under ENABLED, brake a temporal formula
THEOREM Port!Watch(drum, 1, 0, hook, lever, Step) /\ Guard
====
