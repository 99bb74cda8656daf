(* The initial basis that this program keeps to has no structure `List`. The name is another one, so
   that nothing is hidden where there is such a structure. *)
structure Lists :> LISTS =
struct
  fun map f [] = []
    | map f (x :: xs) = f x :: map f xs

  fun app f [] = ()
    | app f (x :: xs) = (f x; app f xs)

  fun foldl f acc [] = acc
    | foldl f acc (x :: xs) = foldl f (f (x, acc)) xs

  fun foldr f acc [] = acc
    | foldr f acc (x :: xs) = f (x, foldr f acc xs)

  fun exists p [] = false
    | exists p (x :: xs) = p x orelse exists p xs

  fun member (x, xs) = exists (fn y => x = y) xs

  fun first f [] = NONE
    | first f (x :: xs) =
        case f x of
          NONE => first f xs
        | found => found

  fun repeated xs =
    let
      fun look (_, []) = NONE
        | look (seen, x :: xs) = if member (x, seen) then SOME x else look (x :: seen, xs)
    in
      look ([], xs)
    end

  fun between gap (x :: (rest as _ :: _)) = x :: gap :: between gap rest
    | between _ xs = xs
end
