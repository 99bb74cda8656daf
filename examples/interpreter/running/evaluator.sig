signature EVALUATOR =
sig
  (* What comes of a program that has a type, as it is written. Raises `Report.Error`. *)
  val evaluate : Ast.exp Place.at -> string
end
