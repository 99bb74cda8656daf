(* Finite maps. A map is never changed: each operation answers another one. *)
signature MAP =
sig
  type key
  type 'a map

  val empty : 'a map
  val fromList : (key * 'a) list -> 'a map

  val size : 'a map -> int
  val find : 'a map * key -> 'a option

  (* The map in which a key has a value, whatever it had before. *)
  val insert : 'a map * key * 'a -> 'a map

  (* The same, where a function makes one value of the old one, if there is one, and the new. *)
  val insertWith : ('a * 'a -> 'a) -> 'a map * key * 'a -> 'a map

  val remove : 'a map * key -> 'a map

  (* The entries of both maps, with one value made of two where both have the key. *)
  val unionWith : ('a * 'a -> 'a) -> 'a map * 'a map -> 'a map

  (* Through all entries in rising order of their keys, and in falling order. *)
  val foldl : (key * 'a * 'b -> 'b) -> 'b -> 'a map -> 'b
  val foldr : (key * 'a * 'b -> 'b) -> 'b -> 'a map -> 'b

  val map : (key * 'a -> 'b) -> 'a map -> 'b map
  val filter : (key * 'a -> bool) -> 'a map -> 'a map

  (* All entries in rising order of their keys. *)
  val toList : 'a map -> (key * 'a) list
end
