(* Nesting 32 passes. *)

---- MODULE Nested ----
VARIABLE x
Deep ==
  op16(op16(op16(op16(op16(op16(op16(op16(op16(op16(op16(op16(op16(op16(op16(op16(op16(op16(op16(op16(op16(op16(op16(op16(op16(op16(op16(op16(op16(op16(op16(x)))))))))))))))))))))))))))))))
====
