(* The evaluator, over any map from names. `where type` says that its parts fit together, since
   `sharing` is outside this part of the language. *)
functor EvaluatorFn
  ( structure Env : MAP where type key = string
    structure Value : VALUE where type 'a env = 'a Env.map
    structure Builtins : BUILTINS where type value = Value.value
  ) :> EVALUATOR =
struct
  structure A = Ast
  structure V = Value

  datatype at = datatype Place.at

  fun fail place message = Report.fail Report.Running place message

  (* Does what may be wrong for a phrase at a place. *)
  fun try place f x =
    f x
    handle Builtins.Wrong message => fail place message

  val initial = Env.insertAll (Env.empty, Builtins.functions)

  fun constant (A.Integer n) = V.Integer n
    | constant (A.Boolean b) = V.Boolean b
    | constant (A.String s) = V.String s
    | constant A.Unit = V.Unit

  (* The environment with what a pattern binds of a value, if the value fits. *)
  fun matched (At (_, pattern), value, env) =
    case (pattern, value) of
      (A.Any, _) => SOME env
    | (A.Bound name, _) => SOME (Env.insert (env, name, value))
    | (A.Exactly c, _) => if V.equal (constant c, value) then SOME env else NONE
    | (A.EmptyList, V.List []) => SOME env
    | (A.Front (first, rest), V.List (x :: xs)) => both ((first, x), (rest, V.List xs), env)
    | (A.Both (first, second), V.Pair (x, y)) => both ((first, x), (second, y), env)
    | _ => NONE

  and both ((p, x), (q, y), env) =
    case matched (p, x, env) of
      SOME env => matched (q, y, env)
    | NONE => NONE

  fun noMatch (place, value) = fail place ("no pattern fits " ^ V.toString value)

  fun exp env (At (place, e)) =
    case e of
      A.Constant c => constant c
    | A.Variable name => find (env, place, name)
    | A.Nil => V.List []
    | A.Pair (first, second) => V.Pair (exp env first, exp env second)
    | A.Negate negated => try place Builtins.negate (exp env negated)
    | A.Function (pattern, body) => V.Closure (pattern, body, ref env)
    | A.Apply (function, argument) => apply (place, exp env function, exp env argument)
    | A.Infix ("and", left, right) => if holds env left then exp env right else V.Boolean false
    | A.Infix ("or", left, right) => if holds env left then V.Boolean true else exp env right
    | A.Infix (name, left, right) => try place Builtins.operate (name, exp env left, exp env right)
    | A.If (test, yes, no) => exp env (if holds env test then yes else no)
    | A.Case (subject as At (place, _), rules) => select (env, place, exp env subject, rules)
    | A.Let (pattern, right, body) => select (env, place, exp env right, [(pattern, body)])
    | A.LetRec (name, right, body) => exp (recursive (env, name, exp env right)) body

  and find (env, place, name) =
    case Env.find (env, name) of
      SOME value => value
    | NONE => fail place ("nothing is called " ^ name)

  and holds env (test as At (place, _)) =
    case exp env test of
      V.Boolean b => b
    | _ => fail place "a condition is true or false"

  (* The first rule that fits. *)
  and select (env, place, value, rules) =
    case rules of
      [] => noMatch (place, value)
    | (pattern, body) :: others =>
        case matched (pattern, value, env) of
          SOME env => exp env body
        | NONE => select (env, place, value, others)

  and apply (place, function, argument) =
    case function of
      V.Closure (pattern, body, ref env) => select (env, place, argument, [(pattern, body)])
    | V.Builtin f => try place f argument
    | _ => fail place "only a function is applied"

  (* The environment with a function that has itself among its names. *)
  and recursive (env, name, function) =
    let
      val env = Env.insert (env, name, function)
    in
      (case function of
         V.Closure (_, _, own) => own := env
       | _ => ()
      ; env)
    end

  fun evaluate program = V.toString (exp initial program)
end
