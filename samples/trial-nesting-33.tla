(* Nesting 33 is refused with 5. *)

---- MODULE Nested ----
VARIABLE x
Deep ==
  op16(op16(op16(op16(op16(op16(op16(op16(op16(op16(op16(op16(op16(op16(op16(op16(op16(op16(op16(op16(op16(op16(op16(op16(op16(op16(op16(op16(op16(op16(op16(op16(x))))))))))))))))))))))))))))))))
====
