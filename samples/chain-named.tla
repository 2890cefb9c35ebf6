(* The same chain with a name for the inner instance: refused with 16 where the winch is instanced. *)

---- MODULE Valve ----
CONSTANT most
VARIABLE open
Shut == open = 0
====

---- MODULE Winch ----
CONSTANT strength
VARIABLE pressure
V == INSTANCE Valve WITH most <- strength * 2, open <- pressure
Halt == V!Shut
====

---- MODULE Deck ----
CONSTANT rating
VARIABLE port
Port == INSTANCE Winch WITH strength <- rating, pressure <- port
====
