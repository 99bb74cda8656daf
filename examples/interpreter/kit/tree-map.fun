(* Maps as red-black trees. No red node has a red child, and each way from the root to a leaf has
   equally many black nodes. So the longest way is at most twice as long as the shortest. *)
functor TreeMap (Key : ORDERED) :> MAP where type key = Key.t =
struct
  type key = Key.t

  datatype color = Red | Black

  datatype 'a map
    = Leaf
    | Node of color * 'a map * (key * 'a) * 'a map

  val empty = Leaf

  fun find (Leaf, _) = NONE
    | find (Node (_, left, (key, value), right), wanted) =
        case Key.compare (wanted, key) of
          LESS => find (left, wanted)
        | EQUAL => SOME value
        | GREATER => find (right, wanted)

  (* A node of which one child may be red with a red child of its own. If it is black, the four such
     trees become one. *)
  fun balance (Black, Node (Red, Node (Red, a, x, b), y, c), z, d) = red (a, x, b, y, c, z, d)
    | balance (Black, Node (Red, a, x, Node (Red, b, y, c)), z, d) = red (a, x, b, y, c, z, d)
    | balance (Black, a, x, Node (Red, Node (Red, b, y, c), z, d)) = red (a, x, b, y, c, z, d)
    | balance (Black, a, x, Node (Red, b, y, Node (Red, c, z, d))) = red (a, x, b, y, c, z, d)
    | balance node = Node node

  and red (a, x, b, y, c, z, d) = Node (Red, Node (Black, a, x, b), y, Node (Black, c, z, d))

  fun insert (map, key, value) =
    let
      fun into Leaf = Node (Red, Leaf, (key, value), Leaf)
        | into (Node (color, left, entry as (other, _), right)) =
            case Key.compare (key, other) of
              LESS => balance (color, into left, entry, right)
            | EQUAL => Node (color, left, (key, value), right)
            | GREATER => balance (color, left, entry, into right)
    in
      case into map of
        Node (_, left, entry, right) => Node (Black, left, entry, right)
      | Leaf => Leaf
    end

  fun insertAll (map, entries) =
    Lists.foldl (fn ((key, value), map) => insert (map, key, value)) map entries

  fun toList map =
    let
      fun collect (Leaf, entries) = entries
        | collect (Node (_, left, entry, right), entries) =
            collect (left, entry :: collect (right, entries))
    in
      collect (map, [])
    end
end
