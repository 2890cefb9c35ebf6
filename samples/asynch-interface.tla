(* The book's first specification of an asynchronous interface (source 004, Figure 3.1).       *)
(* Built-ins that have no sign in this notation are given names by definition, in two modules. *)

---- MODULE Signs ----
In(e, S) == op55(e, S)          \* e \in S
Implies(a, b) == op56(a, b)     \* a => b
Both(a, b) == op57(a, b)        \* {a, b}
Pair(a, b) == op58(a, b)        \* <<a, b>>
Triple(a, b, c) == op96(a, b, c)
====

---- MODULE Naturals ----
Minus(a, b) == op59(a, b)       \* a - b
====

---- MODULE AsynchInterface ----
EXTENDS Naturals, Signs
CONSTANT Data
VARIABLES val, rdy, ack

TypeInvariant == In(val, Data) /\ In(rdy, Both(0, 1)) /\ In(ack, Both(0, 1))
Init == In(val, Data) /\ In(rdy, Both(0, 1)) /\ ack = rdy

Send == rdy = ack /\ In(val', Data) /\ rdy' = Minus(1, rdy) /\ UNCHANGED ack
Rcv == rdy # ack /\ ack' = Minus(1, ack) /\ UNCHANGED Pair(val, rdy)

Next == Send \/ Rcv
Spec == Init /\ [][Next]_(Triple(val, rdy, ack))
----
THEOREM Implies(Spec, []TypeInvariant)
====
