functor BuiltinsFn (Value : VALUE) :> BUILTINS where type value = Value.value =
struct
  open Value

  exception Wrong of string

  (* What no program comes to that has a type. *)
  fun untyped name = raise Wrong (name ^ " isn't for values of this kind")

  fun compared name (left, right) =
    equal (left, right)
    handle Function => raise Wrong (name ^ " doesn't compare functions")

  (* The rest lies between zero and the divisor, which may not be zero. *)
  fun divided operation (m, n) =
    if n = 0 then raise Wrong "division by zero" else operation (m, n)

  fun integers name (m, n) =
    case name of
      "+" => Integer (m + n)
    | "-" => Integer (m - n)
    | "*" => Integer (m * n)
    | "/" => Integer (divided (op div) (m, n))
    | "%" => Integer (divided (op mod) (m, n))
    | "<" => Boolean (m < n)
    | "<=" => Boolean (m <= n)
    | ">" => Boolean (m > n)
    | ">=" => Boolean (m >= n)
    | _ => untyped name

  fun operate (name, left, right) =
    (case (name, left, right) of
       ("=", _, _) => Boolean (compared name (left, right))
     | ("<>", _, _) => Boolean (not (compared name (left, right)))
     | ("::", _, List rest) => List (left :: rest)
     | ("^", String s, String t) => String (s ^ t)
     | (_, Integer m, Integer n) => integers name (m, n)
     | _ => untyped name)
    handle Overflow => raise Wrong "a number that is too large"

  fun negate (Integer n) = operate ("-", Integer 0, Integer n)
    | negate _ = untyped "-"

  fun head (List (first :: _)) = first
    | head (List []) = raise Wrong "the head of an empty list"
    | head _ = untyped "head"

  fun tail (List (_ :: rest)) = List rest
    | tail (List []) = raise Wrong "the tail of an empty list"
    | tail _ = untyped "tail"

  val functions =
    [ ("not", Builtin (fn Boolean b => Boolean (not b) | _ => untyped "not"))
    , ("head", Builtin head)
    , ("tail", Builtin tail)
    , ("first", Builtin (fn Pair (x, _) => x | _ => untyped "first"))
    , ("second", Builtin (fn Pair (_, y) => y | _ => untyped "second"))
    , ("size", Builtin (fn String s => Integer (size s) | _ => untyped "size"))
    , ("show", Builtin (fn value => String (toString value)))
    ]
end
