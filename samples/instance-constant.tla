(* An instance of a constant module: its definitions have level 0, and rise to the highest *)
(* substitute's level at most.                                                             *)

---- MODULE Lamp ----
CONSTANTS near, over

Lit == near \/ over             \* 0
Yellow == near                  \* 0
====

---- MODULE Panel ----
CONSTANT channel
VARIABLE draghead
Over == draghead > channel      \* 1

Step == INSTANCE Lamp WITH near <- Over, over <- Over'      \* highest substitute 2: Lit 2, Yellow 1
Watch == INSTANCE Lamp WITH near <- Over, over <- <>Over    \* highest substitute 3: Lit 3, Yellow 1
====
