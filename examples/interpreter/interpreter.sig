signature INTERPRETER =
sig
  (* What there is to say of a program: its text in good form, its value and its type, or what is
     wrong with it and where. *)
  val interpret : string -> string
end
