(* The depth display made lawful: the unit is a constant of the panel too. *)

---- MODULE Depth ----
CONSTANT unit           \* centimetres in one step of the draghead reading: decimetres, so 10
VARIABLE reading

Depth == reading * unit
TooDeep(limit) == Depth > limit
Sink == reading' = reading + 1
Spec == reading = 0 /\ [][Sink]_reading
====

---- MODULE Panel ----
CONSTANT channel, decimetre
VARIABLE draghead

Head == INSTANCE Depth WITH unit <- decimetre, reading <- draghead

Cut == ENABLED Head!Sink /\ channel > Head!Depth
====
