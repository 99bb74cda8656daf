(* Finite maps. A map is never changed: `insert` answers another one. *)
signature MAP =
sig
  type key
  type 'a map

  val empty : 'a map

  (* The map with one more entry, in the place of one that the key had. *)
  val insert : 'a map * key * 'a -> 'a map

  (* The same with each entry of a list, one after the other. *)
  val insertAll : 'a map * (key * 'a) list -> 'a map

  val find : 'a map * key -> 'a option

  (* All entries, in rising order of their keys. *)
  val toList : 'a map -> (key * 'a) list
end
