(* Puts the parts together, over maps from strings, and runs the samples. *)
structure Main =
struct
  structure Env = TreeMap (type t = string val compare = String.compare)

  structure Value = ValueFn (Env)

  structure Evaluator =
    EvaluatorFn
      (structure Env = Env
       structure Value = Value
       structure Builtins = BuiltinsFn (Value))

  structure Interpreter =
    InterpreterFn
      (structure Parser = Parser
       structure Printer = Printer
       structure Infer = InferFn (Env)
       structure Evaluator = Evaluator)

  fun show (title, text) = print ("-- " ^ title ^ "\n" ^ Interpreter.interpret text ^ "\n")

  val () = Lists.app show Samples.programs
end
