(* The trees of programs. Each part has its place. *)
structure Ast =
struct
  datatype constant
    = Integer of int
    | Boolean of bool
    | String of string
    | Unit

  datatype pattern
    = Any
    | Bound of string
    | Exactly of constant
    | EmptyList
    | Front of pattern Place.at * pattern Place.at
    | Both of pattern Place.at * pattern Place.at

  datatype exp
    = Constant of constant
    | Variable of string
    | Nil
    | Pair of exp Place.at * exp Place.at
    | Function of pattern Place.at * exp Place.at
    | Apply of exp Place.at * exp Place.at
    | Negate of exp Place.at
    | Infix of string * exp Place.at * exp Place.at
    | If of exp Place.at * exp Place.at * exp Place.at
    | Case of exp Place.at * (pattern Place.at * exp Place.at) list
    | Let of pattern Place.at * exp Place.at * exp Place.at
    | LetRec of string * exp Place.at * exp Place.at

  (* The names that a pattern binds, from left to right. *)
  fun names (Place.At (_, pattern)) =
    case pattern of
      Bound name => [name]
    | Front (p, q) => names p @ names q
    | Both (p, q) => names p @ names q
    | Any => []
    | Exactly _ => []
    | EmptyList => []
end
