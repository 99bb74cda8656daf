(* Trees that are balanced by weight: of two trees that hang on one node, none has more than three
   times as many entries as the other, unless both together have at most one. *)
functor TreeFn (Key : ORDERED) :> TREE where type key = Key.t =
struct
  type key = Key.t

  (* A node has the number of all entries from there on. *)
  datatype 'a tree
    = Leaf
    | Node of int * 'a tree * (key * 'a) * 'a tree

  val empty = Leaf

  fun size Leaf = 0
    | size (Node (count, _, _, _)) = count

  (* A node of trees that are balanced against each other. *)
  fun node (left, entry, right) = Node (size left + 1 + size right, left, entry, right)

  val heavy = 3
  val inner = 2

  (* The same of trees of which one may have become too heavy: an entry was put in there, or taken
     out here, or it was joined with others. *)
  fun balanced (left, entry, right) =
    if size left + size right <= 1 then node (left, entry, right)
    else if size right > heavy * size left then leftwards (left, entry, right)
    else if size left > heavy * size right then rightwards (left, entry, right)
    else node (left, entry, right)

  and leftwards (a, x, Node (_, b, y, c)) =
        if size b < inner * size c then node (node (a, x, b), y, c)
        else
          (case b of
             Node (_, b', z, b'') => node (node (a, x, b'), z, node (b'', y, c))
           | Leaf => node (node (a, x, b), y, c))
    | leftwards (a, x, Leaf) = node (a, x, Leaf)

  and rightwards (Node (_, a, x, b), y, c) =
        if size b < inner * size a then node (a, x, node (b, y, c))
        else
          (case b of
             Node (_, b', z, b'') => node (node (a, x, b'), z, node (b'', y, c))
           | Leaf => node (a, x, node (b, y, c)))
    | rightwards (Leaf, y, c) = node (Leaf, y, c)

  fun find (Leaf, _) = NONE
    | find (Node (_, left, (key, value), right), wanted) =
        case Key.compare (wanted, key) of
          LESS => find (left, wanted)
        | EQUAL => SOME value
        | GREATER => find (right, wanted)

  fun insert merge (tree, key, value) =
    let
      fun into Leaf = node (Leaf, (key, value), Leaf)
        | into (Node (count, left, entry as (other, old), right)) =
            case Key.compare (key, other) of
              LESS => balanced (into left, entry, right)
            | EQUAL => Node (count, left, (key, merge (old, value)), right)
            | GREATER => balanced (left, entry, into right)
    in
      into tree
    end

  (* The first entry of a tree that has some, and the others. *)
  fun parted (Leaf, entry, right) = (entry, right)
    | parted (Node (_, left, first, between), entry, right) =
        let
          val (least, rest) = parted (left, first, between)
        in
          (least, balanced (rest, entry, right))
        end

  (* Two trees that are balanced against each other, the first with lesser keys. *)
  fun glued (left, Leaf) = left
    | glued (left, Node (_, right, entry, right')) =
        let
          val (least, rest) = parted (right, entry, right')
        in
          balanced (left, least, rest)
        end

  fun remove (Leaf, _) = Leaf
    | remove (Node (_, left, entry as (key, _), right), wanted) =
        case Key.compare (wanted, key) of
          LESS => balanced (remove (left, wanted), entry, right)
        | EQUAL => glued (left, right)
        | GREATER => balanced (left, entry, remove (right, wanted))

  (* Two trees of any weights, with an entry between them. *)
  fun joined (left, entry, right) =
    case (left, right) of
      (Leaf, _) => first (entry, right)
    | (_, Leaf) => last (left, entry)
    | (Node (m, a, x, b), Node (n, c, y, d)) =>
        if n > heavy * m then balanced (joined (left, entry, c), y, d)
        else if m > heavy * n then balanced (a, x, joined (b, entry, right))
        else node (left, entry, right)

  and first (entry, Leaf) = node (Leaf, entry, Leaf)
    | first (entry, Node (_, left, other, right)) = balanced (first (entry, left), other, right)

  and last (Leaf, entry) = node (Leaf, entry, Leaf)
    | last (Node (_, left, other, right), entry) = balanced (left, other, last (right, entry))

  (* The same without an entry. *)
  fun appended (left, Leaf) = left
    | appended (left, Node (_, right, entry, right')) =
        let
          val (least, rest) = parted (right, entry, right')
        in
          joined (left, least, rest)
        end

  (* What a tree has on both sides of a key, and what the key has. *)
  fun split (Leaf, _) = (Leaf, NONE, Leaf)
    | split (Node (_, left, entry as (key, value), right), at) =
        case Key.compare (at, key) of
          EQUAL => (left, SOME value, right)
        | LESS =>
            let
              val (lesser, found, greater) = split (left, at)
            in
              (lesser, found, joined (greater, entry, right))
            end
        | GREATER =>
            let
              val (lesser, found, greater) = split (right, at)
            in
              (joined (left, entry, lesser), found, greater)
            end

  fun union merge (tree, Leaf) = tree
    | union merge (Leaf, tree) = tree
    | union merge (Node (_, left, (key, value), right), tree) =
        let
          val (lesser, found, greater) = split (tree, key)
          val both = case found of SOME other => merge (value, other) | NONE => value
        in
          joined (union merge (left, lesser), (key, both), union merge (right, greater))
        end

  fun common (Leaf, _) = Leaf
    | common (Node (_, left, entry as (key, _), right), tree) =
        let
          val (lesser, found, greater) = split (tree, key)
          val left = common (left, lesser)
          val right = common (right, greater)
        in
          case found of
            SOME _ => joined (left, entry, right)
          | NONE => appended (left, right)
        end

  fun without (tree, Leaf) = tree
    | without (tree, Node (_, left, (key, _), right)) =
        let
          val (lesser, _, greater) = split (tree, key)
        in
          appended (without (lesser, left), without (greater, right))
        end

  fun foldl f result Leaf = result
    | foldl f result (Node (_, left, (key, value), right)) =
        foldl f (f (key, value, foldl f result left)) right

  fun foldr f result Leaf = result
    | foldr f result (Node (_, left, (key, value), right)) =
        foldr f (f (key, value, foldr f result right)) left

  fun map f Leaf = Leaf
    | map f (Node (count, left, (key, value), right)) =
        Node (count, map f left, (key, f (key, value)), map f right)

  fun filter passes Leaf = Leaf
    | filter passes (Node (_, left, entry, right)) =
        if passes entry then joined (filter passes left, entry, filter passes right)
        else appended (filter passes left, filter passes right)
end
