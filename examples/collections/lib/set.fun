(* Sets are trees whose entries have no value. *)
functor SetFn (Key : ORDERED) :> SET where type item = Key.t =
struct
  structure Tree = TreeFn (Key)

  type item = Key.t
  type set = unit Tree.tree

  val empty = Tree.empty

  fun ignored _ = ()

  fun insert (set, item) = Tree.insert ignored (set, item, ())
  fun singleton item = insert (empty, item)

  fun fromList items =
    let
      fun go (set, []) = set
        | go (set, item :: items) = go (insert (set, item), items)
    in
      go (empty, items)
    end

  val size = Tree.size : set -> int
  fun isEmpty set = size set = 0

  fun member (set, item) =
    case Tree.find (set, item) of
      SOME () => true
    | NONE => false

  val remove = Tree.remove : set * item -> set
  val union = Tree.union ignored
  val intersection = Tree.common : set * set -> set
  val difference = Tree.without : set * set -> set

  fun subset (set, other) = isEmpty (difference (set, other))
  fun equal (set, other) = size set = size other andalso subset (set, other)

  fun foldl f = Tree.foldl (fn (item, (), result) => f (item, result))
  fun foldr f = Tree.foldr (fn (item, (), result) => f (item, result))

  fun filter passes = Tree.filter (fn (item, ()) => passes item)

  fun toList set = foldr (op ::) [] set
end
