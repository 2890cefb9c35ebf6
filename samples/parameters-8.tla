(* Eight parameters, as many as there may be, with all, some and none of the 28 pairs clashing. *)

---- MODULE Eight ----
All(a, b, c, d, e, f, g, h) == a /\ b /\ c /\ d /\ e /\ f /\ g /\ h

\* a, d, f, g and h meet, and f is no temporal formula; b and e stand under ENABLED; c is not used
Some(a, b, c, d, e, f, g, h) ==
    a /\ ENABLED (b /\ e') /\ (d \/ h) /\ f /\ ENABLED f /\ \E z \in g : z

None(a, b, c, d, e, f, g, h) == [](a = b) /\ <>(c = d) /\ (e ~> f) /\ [][g]_h

\* one pair each: the first with the last, the last two, the first two
Ends(a, b, c, d, e, f, g, h) == h = a
Last(a, b, c, d, e, f, g, h) == g = h
First(a, b, c, d, e, f, g, h) == ENABLED (c /\ d) /\ ENABLED (e = f) /\ ENABLED g /\ a = b
====

---- MODULE Calls ----
EXTENDS Eight
VARIABLE x
Steps == All(x', x, 0, x', 1, x = 2, 3, x')                         \* 2
Goals == Some(x, x', (x')', []x, x, x, <>x, 0)                      \* 3: b is an action under ENABLED, c is gone, faults and all
Apart == First([]x, <>x, x', x', x, x', x', (x')')                  \* 3
====
