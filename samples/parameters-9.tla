(* A ninth parameter is refused with 5. *)

---- MODULE Nine ----
Eight(a, b, c, d, e, f, g, h) == a /\ b /\ c /\ d /\ e /\ f /\ g /\ h
Nine(a, b, c, d, e, f, g, h, i) == Eight(a, b, c, d, e, f, g, h) /\ i
====
