(* Search trees of keys, each with a value. What is done at one key takes time as the height of the
   tree, which grows as the logarithm of its size. *)
signature TREE =
sig
  type key
  type 'a tree

  val empty : 'a tree
  val size : 'a tree -> int

  val find : 'a tree * key -> 'a option

  (* The tree with an entry. A function makes one value of the key's old one and the new. *)
  val insert : ('a * 'a -> 'a) -> 'a tree * key * 'a -> 'a tree

  val remove : 'a tree * key -> 'a tree

  (* The entries of both trees. The function makes one value of the two that a key has. *)
  val union : ('a * 'a -> 'a) -> 'a tree * 'a tree -> 'a tree

  (* The entries of the first tree whose keys the second one has, or hasn't. *)
  val common : 'a tree * 'b tree -> 'a tree
  val without : 'a tree * 'b tree -> 'a tree

  (* Through all entries in rising order of their keys, and in falling order. *)
  val foldl : (key * 'a * 'b -> 'b) -> 'b -> 'a tree -> 'b
  val foldr : (key * 'a * 'b -> 'b) -> 'b -> 'a tree -> 'b

  val map : (key * 'a -> 'b) -> 'a tree -> 'b tree
  val filter : (key * 'a -> bool) -> 'a tree -> 'a tree
end
