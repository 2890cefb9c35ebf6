(* The accident. Each module is in order by itself; the instance puts a variable where the depth *)
(* module, which has a variable, wants a constant. Refused with 14 at the INSTANCE field.        *)

---- MODULE Depth ----
CONSTANT unit           \* centimetres in one step of the draghead reading: decimetres, so 10
VARIABLE reading

Depth == reading * unit
TooDeep(limit) == Depth > limit
Sink == reading' = reading + 1
Spec == reading = 0 /\ [][Sink]_reading
====

---- MODULE Panel ----
CONSTANT channel
VARIABLES draghead, scale

Head == INSTANCE Depth WITH unit <- scale, reading <- draghead

Cut == ENABLED Head!Sink /\ channel > Head!Depth
====
