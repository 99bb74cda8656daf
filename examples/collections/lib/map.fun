functor MapFn (Key : ORDERED) :> MAP where type key = Key.t =
struct
  structure Tree = TreeFn (Key)

  type key = Key.t
  type 'a map = 'a Tree.tree

  val empty = Tree.empty
  val size = Tree.size
  val find = Tree.find

  val insertWith = Tree.insert
  fun insert (map, key, value) = insertWith (fn (_, new) => new) (map, key, value)

  fun fromList entries =
    let
      fun go (map, []) = map
        | go (map, (key, value) :: entries) = go (insert (map, key, value), entries)
    in
      go (empty, entries)
    end

  val remove = Tree.remove
  val unionWith = Tree.union

  val foldl = Tree.foldl
  val foldr = Tree.foldr
  val map = Tree.map
  val filter = Tree.filter

  fun toList map = foldr (fn (key, value, entries) => (key, value) :: entries) [] map
end
