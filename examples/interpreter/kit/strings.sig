(* Characters and strings. *)
signature STRINGS =
sig
  val isDigit : char -> bool
  val isLetter : char -> bool
  val isBlank : char -> bool

  (* A decimal number in digits. Raises `Overflow`. *)
  val toInt : string -> int

  (* A number, with `-` before a negative one. *)
  val fromInt : int -> string

  (* A string between quotes, as it is written in a program. *)
  val quoted : string -> string

  val join : string -> string list -> string
  val spaces : int -> string

  (* The lines of a text, without their line feeds. *)
  val lines : string -> string list
end
