(* A variable for a constant: lawful, since the module instanced is constant. *)

---- MODULE Units ----
CONSTANT unit
Scaled(amount) == amount * unit
====

---- MODULE Panel ----
VARIABLE scale, reading
U == INSTANCE Units WITH unit <- scale
Shown == U!Scaled(reading)
====
