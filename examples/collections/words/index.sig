(* Where each word of a text stands. *)
signature INDEX =
sig
  type index

  (* The index of a text. Lines are counted from 1, and capital letters are those of small ones. *)
  val make : string -> index

  (* The lines in which a word stands, in rising order. *)
  val find : index * string -> int list

  (* The lines in which all of these words stand. *)
  val findAll : index * string list -> int list

  (* Each word with its lines, in the order of the alphabet. *)
  val toString : index -> string
end
