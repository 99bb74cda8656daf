(* Documents that know where they may be broken into lines. *)
signature PRETTY =
sig
  type doc

  val text : string -> doc

  (* A blank, or a new line where the innermost group around it doesn't fit into one. *)
  val line : doc

  (* The same, and nothing in the place of the blank. *)
  val cut : doc

  (* One behind the other. *)
  val row : doc list -> doc

  (* New lines inside begin so many columns further to the right. *)
  val nest : int -> doc -> doc

  (* All on one line, where it fits. *)
  val group : doc -> doc

  (* The text in lines of a width, where that can be. *)
  val render : int -> doc -> string
end
