signature INFER =
sig
  (* The type of a program, as it is written. Raises `Report.Error`. *)
  val infer : Ast.exp Place.at -> string
end
