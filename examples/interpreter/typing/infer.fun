(* Inference in one pass: the type of a phrase is made one with what its surroundings ask for, and a
   `let` makes generic what belongs to its own level. *)
functor InferFn (Env : MAP where type key = string) :> INFER =
struct
  structure A = Ast
  structure T = Type

  datatype at = datatype Place.at
  datatype ty = datatype Type.ty

  fun fail place message = Report.fail Report.Typing place message

  (* Makes the type of a phrase one with what is asked of it. *)
  fun demand (place, found, wanted) =
    Unify.unify (found, wanted)
    handle Unify.Mismatch =>
      (case T.toStrings [found, wanted] of
         [found, wanted] => fail place ("this is " ^ found ^ ", and should be " ^ wanted)
       | _ => fail place "this has another type than it should have")
    | Unify.Circular => fail place "the type of this would have to hold itself"

  (* What is there at the beginning. *)
  val initial =
    let
      val a = Generic 0
      val b = Generic 1
      fun binary (left, right, result) = Arrow (left, Arrow (right, result))
      fun scheme (name, ty) = (name, T.generalised 0 ty)
      fun all names ty = Lists.map (fn name => scheme (name, ty)) names
    in
      Env.insertAll
        ( Env.empty
        , all ["+", "-", "*", "/", "%"] (binary (Integer, Integer, Integer))
          @ all ["<", "<=", ">", ">="] (binary (Integer, Integer, Boolean))
          @ all ["=", "<>"] (binary (a, a, Boolean))
          @ all ["and", "or"] (binary (Boolean, Boolean, Boolean))
          @ [ scheme ("^", binary (String, String, String))
            , scheme ("::", binary (a, List a, List a))
            , scheme ("not", Arrow (Boolean, Boolean))
            , scheme ("head", Arrow (List a, a))
            , scheme ("tail", Arrow (List a, List a))
            , scheme ("first", Arrow (Pair (a, b), a))
            , scheme ("second", Arrow (Pair (a, b), b))
            , scheme ("size", Arrow (String, Integer))
            , scheme ("show", Arrow (a, String))
            ]
        )
    end

  fun constant (A.Integer _) = Integer
    | constant (A.Boolean _) = Boolean
    | constant (A.String _) = String
    | constant A.Unit = Unit

  (* The type of a pattern at a level, and in front of some others the types of its names. *)
  fun pattern level (At (_, p), names) =
    case p of
      A.Any => (T.unknown level, names)
    | A.Bound name => let val ty = T.unknown level in (ty, (name, ty) :: names) end
    | A.Exactly c => (constant c, names)
    | A.EmptyList => (List (T.unknown level), names)
    | A.Both (first, second) =>
        let
          val (t, names) = pattern level (first, names)
          val (u, names) = pattern level (second, names)
        in
          (Pair (t, u), names)
        end
    | A.Front (first, rest as At (place, _)) =>
        let
          val (t, names) = pattern level (first, names)
          val (u, names) = pattern level (rest, names)
        in
          (demand (place, u, List t); (u, names))
        end

  (* The environment with names, the scheme of each made of its type. *)
  fun bind scheme (env, names) =
    Env.insertAll (env, Lists.map (fn (name, ty) => (name, scheme ty)) names)

  fun instance (env, level, place, name) =
    case Env.find (env, name) of
      SOME scheme => T.instance level scheme
    | NONE => fail place ("nothing is called " ^ name)

  (* The type of an expression in the scope of so many `let`s. *)
  fun exp (env, level) (At (place, e)) =
    case e of
      A.Constant c => constant c
    | A.Variable name => instance (env, level, place, name)
    | A.Nil => List (T.unknown level)
    | A.Pair (first, second) => Pair (exp (env, level) first, exp (env, level) second)
    | A.Negate negated => (check (env, level) (negated, Integer); Integer)
    | A.Function rule => function (env, level) rule
    | A.Apply (function as At (place, _), argument) =>
        (case T.view (exp (env, level) function) of
           Arrow (parameter, result) => (check (env, level) (argument, parameter); result)
         | found =>
             let
               val parameter = exp (env, level) argument
               val result = T.unknown level
             in
               (demand (place, found, Arrow (parameter, result)); result)
             end)
    | A.Infix (name, left, right) =>
        (case instance (env, level, place, name) of
           Arrow (first, Arrow (second, result)) =>
             ( check (env, level) (left, first)
             ; check (env, level) (right, second)
             ; result
             )
         | _ => fail place (name ^ " takes no two operands"))
    | A.If (test, yes, no) =>
        let
          val () = check (env, level) (test, Boolean)
          val result = exp (env, level) yes
        in
          (check (env, level) (no, result); result)
        end
    | A.Case (subject, rules) =>
        let
          val asked = exp (env, level) subject
          val result = T.unknown level
        in
          (Lists.app (fn rule => branch (env, level) (asked, result) rule) rules; result)
        end
    | A.Let (left as At (place, _), right, body) =>
        let
          val (ty, names) = pattern (level + 1) (left, [])
        in
          ( check (env, level + 1) (right, ty)
          ; exp (bind (T.generalised level) (env, names), level) body
          )
        end
    | A.LetRec (name, right, body) =>
        let
          val ty = T.unknown (level + 1)
        in
          ( check (bind T.plain (env, [(name, ty)]), level + 1) (right, ty)
          ; exp (bind (T.generalised level) (env, [(name, ty)]), level) body
          )
        end

  (* The type of the function from a pattern to an expression. *)
  and function (env, level) (left, right) =
    let
      val (parameter, names) = pattern level (left, [])
    in
      Arrow (parameter, exp (bind T.plain (env, names), level) right)
    end

  and branch (env, level) (asked, result) (left as At (place, _), right) =
    let
      val (ty, names) = pattern level (left, [])
    in
      ( demand (place, ty, asked)
      ; check (bind T.plain (env, names), level) (right, result)
      )
    end

  (* Infers the type of an expression of which one is wanted. *)
  and check (env, level) (phrase as At (place, _), wanted) =
    demand (place, exp (env, level) phrase, wanted)

  fun infer program =
    case T.toStrings [exp (initial, 0) program] of
      [ty] => ty
    | _ => raise Fail "one type is one string"
end
