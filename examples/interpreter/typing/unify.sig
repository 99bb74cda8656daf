signature UNIFY =
sig
  (* Two types differ for good, or one would have to stand in itself. *)
  exception Mismatch
  exception Circular

  (* Makes two types one, where they can be. What became known stays known where they can't. *)
  val unify : Type.ty * Type.ty -> unit
end
