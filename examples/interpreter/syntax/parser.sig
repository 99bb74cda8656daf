signature PARSER =
sig
  (* The tree of a program, which is one expression. Raises `Report.Error`. *)
  val parse : string -> Ast.exp Place.at
end
