(* Finite sets. A set is never changed: each operation answers another one. *)
signature SET =
sig
  type item
  type set

  val empty : set
  val singleton : item -> set
  val fromList : item list -> set

  val size : set -> int
  val isEmpty : set -> bool
  val member : set * item -> bool

  val insert : set * item -> set
  val remove : set * item -> set

  val union : set * set -> set
  val intersection : set * set -> set
  val difference : set * set -> set

  val subset : set * set -> bool
  val equal : set * set -> bool

  (* Through all items in rising order, and in falling order. *)
  val foldl : (item * 'a -> 'a) -> 'a -> set -> 'a
  val foldr : (item * 'a -> 'a) -> 'a -> set -> 'a

  val filter : (item -> bool) -> set -> set

  (* All items in rising order. *)
  val toList : set -> item list
end
