(* The book's second specification (source 004, Figure 3.2), and a module that uses it twice. *)

---- MODULE Signs ----
In(e, S) == op55(e, S)                  \* e \in S
Implies(a, b) == op56(a, b)             \* a => b
Both(a, b) == op57(a, b)                \* {a, b}
Val(r) == op16(r)                       \* r.val
Rdy(r) == op17(r)                       \* r.rdy
Ack(r) == op18(r)                       \* r.ack
Records(v, r, a) == op97(v, r, a)       \* [val : v, rdy : r, ack : a]
Record(v, r, a) == op98(v, r, a)        \* [val |-> v, rdy |-> r, ack |-> a]
====

---- MODULE Naturals ----
Minus(a, b) == op59(a, b)               \* a - b
====

---- MODULE Channel ----
EXTENDS Naturals, Signs
CONSTANT Data
VARIABLE chan

TypeInvariant == In(chan, Records(Data, Both(0, 1), Both(0, 1)))
Init == TypeInvariant /\ Ack(chan) = Rdy(chan)

Send(d) == Rdy(chan) = Ack(chan)
             /\ chan' = Record(d, Minus(1, Rdy(chan)), Ack(chan))
Rcv == Rdy(chan) # Ack(chan)
         /\ chan' = Record(Val(chan), Rdy(chan), Minus(1, Ack(chan)))

Next == (\E d \in Data : Send(d)) \/ Rcv
Spec == Init /\ [][Next]_chan
----
THEOREM Implies(Spec, []TypeInvariant)
====

---- MODULE Relay ----
\* What comes in on one channel goes out on the other.
CONSTANT Message
VARIABLES in, out

InChan == INSTANCE Channel WITH Data <- Message, chan <- in
OutChan == INSTANCE Channel WITH Data <- Message, chan <- out

Init == InChan!Init /\ OutChan!Init
Put(m) == InChan!Send(m) /\ UNCHANGED out
Pass == InChan!Rcv /\ OutChan!Send(InChan!Val(in))
Get == OutChan!Rcv /\ UNCHANGED in
Next == (\E m \in Message : Put(m)) \/ Pass \/ Get
Spec == Init /\ [][Next]_(op58(in, out)) /\ WF_out(Get)
----
THEOREM op56(Spec, [](InChan!TypeInvariant /\ OutChan!TypeInvariant))     \* =>
====
