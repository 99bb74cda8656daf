(* How tightly operators bind. *)
signature FIXITY =
sig
  (* `a - b - c` is `(a - b) - c`, `a :: b :: c` is `a :: (b :: c)`, and `a < b < c` is nothing. *)
  datatype side = Left | Right | Neither

  (* An operator with a greater strength takes its operands first. *)
  type fixity = {strength : int, side : side}

  val find : string -> fixity option

  (* Those of application, and of the minus sign before an operand. *)
  val application : int
  val negation : int
end

structure Fixity :> FIXITY =
struct
  datatype side = Left | Right | Neither

  type fixity = {strength : int, side : side}

  val table =
    [ (["or"], {strength = 1, side = Right})
    , (["and"], {strength = 2, side = Right})
    , (["=", "<>", "<", "<=", ">", ">="], {strength = 3, side = Neither})
    , (["::"], {strength = 4, side = Right})
    , (["+", "-", "^"], {strength = 5, side = Left})
    , (["*", "/", "%"], {strength = 6, side = Left})
    ]

  val negation = 7
  val application = 8

  fun find name =
    let
      fun own (names, fixity) = if Lists.member (name, names) then SOME fixity else NONE
    in
      Lists.first own table
    end
end
