(* An instance of a module with variables: with parameters at 0 no level rises, and a 3 never *)
(* becomes a 2. Test puts a fixed depth for the reading, to try the display on deck; At takes *)
(* the depth as a parameter.                                                                  *)

---- MODULE Depth ----
CONSTANT limit
VARIABLE reading

Deep == reading > limit                 \* 1
Sink == reading' = reading + 1          \* 2
Alarm == []Deep                         \* 3
====

---- MODULE Panel ----
CONSTANT channel
VARIABLE draghead

Live == INSTANCE Depth WITH limit <- channel, reading <- draghead           \* 1, 2, 3
Test == INSTANCE Depth WITH limit <- channel, reading <- channel + 1        \* 0, 2, 3
At(depth) == INSTANCE Depth WITH limit <- channel, reading <- depth         \* with depth at 0: 0, 2, 3
====
