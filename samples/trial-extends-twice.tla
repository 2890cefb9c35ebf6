(* EXTENDS of one module twice, directly and through another: passes, and adds no definition. *)

---- MODULE Base ----
CONSTANT c
VARIABLE x
Sum == x + c
====

---- MODULE Middle ----
EXTENDS Base
More == Sum + 1
====

---- MODULE Top ----
EXTENDS Base, Middle, Base
Most == More + Sum
====
