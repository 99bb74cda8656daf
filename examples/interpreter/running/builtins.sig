(* What is there before a program begins. *)
signature BUILTINS =
sig
  type value

  (* Says why there is no value. *)
  exception Wrong of string

  val functions : (string * value) list

  (* An operator other than `and` and `or`, with both its operands. Raises `Wrong`. *)
  val operate : string * value * value -> value

  val negate : value -> value
end
