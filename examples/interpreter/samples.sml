(* Programs to try the interpreter with: titles and texts. *)
structure Samples =
struct
  val programs =
    [ ( "a sequence"
      , "let rec fibonacci n = if n < 2 then n else fibonacci (n - 1) + fibonacci (n - 2) in\n\
        \let rec upTo n = if n = 0 then [] else n :: upTo (n - 1) in\n\
        \let rec map f list = case list of [] => [] | x :: rest => f x :: map f rest in\n\
        \map fibonacci (upTo 15)"
      )
    , ( "sorting in any order"
      , "let rec split list = case list of\n\
        \  [] => ([], [])\n\
        \| [x] => ([x], [])\n\
        \| x :: y :: rest => (let (xs, ys) = split rest in (x :: xs, y :: ys)) in\n\
        \let rec sort before list =\n\
        \  let rec merge pair = case pair of\n\
        \    ([], ys) => ys\n\
        \  | (xs, []) => xs\n\
        \  | (x :: xs, y :: ys) =>\n\
        \      if before (x, y) then x :: merge (xs, y :: ys) else y :: merge (x :: xs, ys) in\n\
        \  case list of [] => [] | [x] => [x] | _ =>\n\
        \    let (some, others) = split list in\n\
        \    merge (sort before some, sort before others) in\n\
        \# the same function for two types\n\
        \(sort (fn (x, y) => x >= y) [3, 1, 4, 1, 5, 9, 2, 6],\n\
        \ sort (fn (s, t) => size s <= size t) [\"three\", \"one\", \"four\"])"
      )
    , ( "functions of functions"
      , "let compose f g x = f (g x) in\n\
        \let twice f = compose f f in\n\
        \(twice twice (fn n => 2 * n) 1, (twice (fn s => s ^ \"!\") \"hi\", compose))"
      )
    , ( "what is never looked at"
      , "let isPositive n = n > 0 in\n\
        \let list = [-1, 2 - 3 - 4, -(7 % 4) * 2] in\n\
        \list = [] or not (isPositive (head list)) and (list <> [] or 1 / 0 = 1)"
      )
    , ("no lexeme", "let s = \"never ended in\ns")
    , ("no program", "let x = 1 in x +")
    , ("an operator too many", "let n = 3 in 1 < n < 5")
    , ("a name twice", "fn (x, y :: x) => y")
    , ("no type", "let add x y = x + y in\nadd 1 \"two\"")
    , ("no type that is finite", "fn f => f f")
    , ("no value", "let rec last list = case list of [x] => x | _ :: rest => last rest in\nlast []")
    , ("no number", "let rec power n = if n = 0 then 1 else 10 * power (n - 1) in power 100")
    , ("no order of functions", "(fn x => x) = (fn y => y)")
    ]
end
