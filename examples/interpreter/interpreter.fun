(* The parts of an interpreter, one behind the other. *)
functor InterpreterFn
  ( structure Parser : PARSER
    structure Printer : PRINTER
    structure Infer : INFER
    structure Evaluator : EVALUATOR
  ) :> INTERPRETER =
struct
  val width = 72

  fun indented text = concat (Lists.map (fn line => "  " ^ line ^ "\n") (Strings.lines text))

  fun interpret text =
    let
      val program = Parser.parse text
      val ty = Infer.infer program
    in
      indented (Printer.print width program) ^ "= " ^ Evaluator.evaluate program ^ " : " ^ ty ^ "\n"
    end
    handle Report.Error report => Report.show text report
end
