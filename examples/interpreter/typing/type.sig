(* The types of the language that is interpreted. *)
signature TYPE =
sig
  datatype ty
    = Integer
    | Boolean
    | String
    | Unit
    | List of ty
    | Pair of ty * ty
    | Arrow of ty * ty
    | Open of state ref       (* one that isn't known yet, or has become known *)
    | Generic of int          (* in a scheme: any type, the same for each number *)

  (* A type that isn't known belongs to a `let`, of which its level tells how many others are
     around. Numbers tell such types apart. *)
  and state
    = Unknown of {number : int, level : int}
    | Known of ty

  (* What a name may be used as: its type, with any types in the place of the generic ones. *)
  type scheme

  (* The type itself, without the `Open`s that have become known around it. *)
  val view : ty -> ty

  (* A new type of a level. *)
  val unknown : int -> ty

  (* The scheme of a type of which all stays as it is. *)
  val plain : ty -> scheme

  (* The scheme of a type in which what belongs to a higher level becomes generic. *)
  val generalised : int -> ty -> scheme

  (* A scheme at a use, with new types of a level. *)
  val instance : int -> scheme -> ty

  (* Types as they are written. What isn't known has a name, the same in all types of the list. *)
  val toStrings : ty list -> string list
end
