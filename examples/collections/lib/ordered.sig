(* A type with a total order. *)
signature ORDERED =
sig
  type t
  val compare : t * t -> order
end
