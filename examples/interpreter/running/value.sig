(* What comes of programs. *)
signature VALUE =
sig
  (* What names stand for. *)
  type 'a env

  (* A function of the program has the names of its surroundings. They stand in a cell, so that a
     recursive function can be among its own names. *)
  datatype value
    = Integer of int
    | Boolean of bool
    | String of string
    | Unit
    | List of value list
    | Pair of value * value
    | Closure of Ast.pattern Place.at * Ast.exp Place.at * value env ref
    | Builtin of value -> value

  (* Raised where a function is compared. *)
  exception Function

  val equal : value * value -> bool

  val toString : value -> string
end
