(* A parameterised module in the manner of source 003: Relation[U, V], there with the type of    *)
(* its relations as functions to Bool, here with the relation itself declared as an operator.    *)
(* It is a constant module, so its constants take substitutes of any level.                      *)

---- MODULE Relation ----
CONSTANTS U, V, R(_, _)

Pred(u, v) == R(u, v)
Inverse(v, u) == Pred(u, v)
SetFunc(u) == bind135 v \in V : R(u, v)         \* {v \in V : R(u, v)}
Domain == bind135 u \in U : \E v \in V : R(u, v)
Range == bind135 v \in V : \E u \in U : Inverse(v, u)
Image(s, v) == \E u \in s : R(u, v)             \* s ** r in source 003
Total == \A u \in U : op55(u, Domain)
====

---- MODULE Compose ----
\* The composition of two relations over one set.
CONSTANTS T, R(_, _), S(_, _)
First == INSTANCE Relation WITH U <- T, V <- T
Second == INSTANCE Relation WITH U <- T, V <- T, R(a, b) <- S(a, b)
Step(u, w) == \E v \in T : First!Pred(u, v) /\ Second!Pred(v, w)
====

---- MODULE Dredge ----
CONSTANTS places, deeper
VARIABLE depths

\* A parameter of the instance comes before the parameters of the replaced operator.
Steeper(by) == INSTANCE Relation WITH
    U <- places,
    V <- op58(depths, by),
    R(here, there) <- op60(here, deeper) > op60(there, deeper) + by

Slope == Steeper!Total(3)
Next(here, there) == Steeper(1)!Inverse(there, here)
THEOREM [](Steeper(3)!Total \/ \E place \in places : Steeper(0)!Image(depths, place))
====
