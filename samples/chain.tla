(* A chain of instances: a winch is built from a valve, a deck from two winches. The inner      *)
(* instance has no name, so what it brings is brought on under the same names.                  *)

---- MODULE Valve ----
CONSTANT most
VARIABLE open
Shut == open = 0
Turn(by) == most > open + by /\ open' = open + by
Safe == most > open
====

---- MODULE Winch ----
CONSTANT strength
VARIABLES pressure, rope
INSTANCE Valve WITH most <- strength * 2, open <- pressure
Haul == Turn(1) /\ rope' = rope + pressure
Halt == Shut /\ UNCHANGED rope
====

---- MODULE Deck ----
CONSTANT rating
VARIABLES port, starboard, length
Port == INSTANCE Winch WITH strength <- rating, pressure <- port, rope <- length
Starboard(slack) == INSTANCE Winch WITH
    strength <- rating + 1, pressure <- starboard, rope <- length + slack
Both == Port!Haul /\ Starboard!Haul(0)
Rest == Port!Halt /\ Starboard(2)!Halt
THEOREM [](Port!Safe /\ Starboard!Safe(1)) /\ [][Both \/ Rest]_length
====
