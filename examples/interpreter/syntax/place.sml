(* Places in a text: lines and columns from 1 on. *)
signature PLACE =
sig
  type place = {line : int, column : int}

  (* Something with the place at which it begins. *)
  datatype 'a at = At of place * 'a

  val start : place

  (* The place behind a character. *)
  val next : place * char -> place

  val toString : place -> string

  val placeOf : 'a at -> place
  val thing : 'a at -> 'a
end

structure Place :> PLACE =
struct
  type place = {line : int, column : int}

  datatype 'a at = At of place * 'a

  val start = {line = 1, column = 1}

  (* (Fields are taken by patterns that name them all: this part of the language has neither `#line`
     nor `...`.) *)
  fun next ({line, column}, c) =
    if c = #"\n" then {line = line + 1, column = 1} else {line = line, column = column + 1}

  fun toString {line, column} = Int.toString line ^ ":" ^ Int.toString column

  fun placeOf (At (place, _)) = place
  fun thing (At (_, it)) = it
end
