(* A parser by recursive descent, with the strengths of operators as arguments. Each function takes
   the lexemes that are left, and answers a tree and those that are left behind it.

     exp     = let pattern = exp in exp
             | let name simple {simple} = exp in exp
             | let rec name simple {simple} = exp in exp
             | if exp then exp else exp
             | case exp of rule {"|" rule}
             | fn simple {simple} => exp
             | operand {operator operand}
     rule    = pattern => exp
     operand = - operand | atom {atom}
     atom    = constant | name | () | (exp) | (exp, exp) | [] | [exp {, exp}]
     pattern = simple [:: pattern]
     simple  = constant | name | _ | () | (pattern) | (pattern, pattern)
             | [] | [pattern {, pattern}]
*)
functor ParserFn (Lexer : LEXER) :> PARSER =
struct
  structure T = Token
  structure A = Ast

  datatype at = datatype Place.at

  fun fail place message = Report.fail Report.Parsing place message

  (* The next lexeme; the last one, `End`, is never passed. *)
  fun next [] = At (Place.start, T.End)
    | next (lexeme :: _) = lexeme

  fun token lexemes = Place.thing (next lexemes)
  fun place lexemes = Place.placeOf (next lexemes)

  fun unexpected (lexemes, wanted) =
    fail (place lexemes) (wanted ^ " should stand here, and not " ^ T.toString (token lexemes))

  fun expect (wanted, lexemes) =
    case lexemes of
      At (_, found) :: rest =>
        if found = wanted then rest else unexpected (lexemes, T.toString wanted)
    | [] => unexpected (lexemes, T.toString wanted)

  (* Items with commas between them, up to a closing bracket. *)
  fun items (item, lexemes) =
    let
      val (first, rest) = item lexemes
    in
      case token rest of
        T.Comma =>
          let
            val (others, rest) = items (item, expect (T.Comma, rest))
          in
            (first :: others, rest)
          end
      | _ => ([first], expect (T.CloseBracket, rest))
    end

  (* What stands behind an opening parenthesis, up to the closing one: one phrase, two, or none. *)
  fun inParens {unit, pair, phrase} (start, lexemes) =
    if token lexemes = T.CloseParen then (At (start, unit), expect (T.CloseParen, lexemes))
    else
      let
        val (first, rest) = phrase lexemes
      in
        if token rest = T.Comma then
          let
            val (second, rest) = phrase (expect (T.Comma, rest))
          in
            (At (start, pair (first, second)), expect (T.CloseParen, rest))
          end
        else (first, expect (T.CloseParen, rest))
      end

  (* What stands behind an opening bracket, up to the closing one. Each item begins a list. *)
  fun inBrackets {nothing, front, phrase} (start, lexemes) =
    if token lexemes = T.CloseBracket then (At (start, nothing), expect (T.CloseBracket, lexemes))
    else
      let
        val (all, rest) = items (phrase, lexemes)
        fun add (item, list) = At (Place.placeOf item, front (item, list))
      in
        (Lists.foldr add (At (start, nothing)) all, rest)
      end

  fun constant (T.Integer n) = SOME (A.Integer n)
    | constant (T.String s) = SOME (A.String s)
    | constant T.True = SOME (A.Boolean true)
    | constant T.False = SOME (A.Boolean false)
    | constant _ = NONE

  (* Patterns. *)

  fun beginsPattern token =
    case token of
      T.Underscore => true
    | T.Name _ => true
    | T.OpenParen => true
    | T.OpenBracket => true
    | _ => (case constant token of SOME _ => true | NONE => false)

  fun pattern lexemes =
    let
      val (first, rest) = simple lexemes
    in
      if token rest = T.Operator "::" then
        let
          val (tail, rest) = pattern (expect (T.Operator "::", rest))
        in
          (At (Place.placeOf first, A.Front (first, tail)), rest)
        end
      else (first, rest)
    end

  and simple [] = unexpected ([], "a pattern")
    | simple (lexemes as At (start, token) :: rest) =
        case token of
          T.Underscore => (At (start, A.Any), rest)
        | T.Name name => (At (start, A.Bound name), rest)
        | T.OpenParen =>
            inParens {unit = A.Exactly A.Unit, pair = A.Both, phrase = pattern} (start, rest)
        | T.OpenBracket =>
            inBrackets {nothing = A.EmptyList, front = A.Front, phrase = pattern} (start, rest)
        | _ =>
            case constant token of
              SOME value => (At (start, A.Exactly value), rest)
            | NONE => unexpected (lexemes, "a pattern")

  (* Simple patterns, as many as there are. *)
  fun simples lexemes =
    if beginsPattern (token lexemes) then
      let
        val (first, rest) = simple lexemes
        val (others, rest) = simples rest
      in
        (first :: others, rest)
      end
    else ([], lexemes)

  (* A pattern that binds each of its names once. *)
  fun checked (pattern as At (place, _)) =
    case Lists.repeated (A.names pattern) of
      SOME name => fail place (name ^ " stands twice in a pattern")
    | NONE => pattern

  (* A function of several patterns is one function in another. *)
  fun function (patterns, body) =
    let
      fun around (p as At (place, _), body) = At (place, A.Function (checked p, body))
    in
      Lists.foldr around body patterns
    end

  (* Expressions. *)

  fun exp lexemes =
    case lexemes of
      At (start, T.Let) :: rest => binding (start, rest)
    | At (start, T.If) :: rest =>
        let
          val (test, rest) = exp rest
          val (yes, rest) = exp (expect (T.Then, rest))
          val (no, rest) = exp (expect (T.Else, rest))
        in
          (At (start, A.If (test, yes, no)), rest)
        end
    | At (start, T.Case) :: rest =>
        let
          val (subject, rest) = exp rest
          val (rules, rest) = rules (expect (T.Of, rest))
        in
          (At (start, A.Case (subject, rules)), rest)
        end
    | At (start, T.Fn) :: rest =>
        (case simples rest of
           ([], rest) => unexpected (rest, "a pattern")
         | (patterns, rest) =>
             let
               val (body, rest) = exp (expect (T.Arrow, rest))
             in
               (At (start, Place.thing (function (patterns, body))), rest)
             end)
    | _ => operators (0, lexemes)

  and binding (start, lexemes) =
    case lexemes of
      At (_, T.Rec) :: At (_, T.Name name) :: rest =>
        let
          val (patterns, rest) = simples rest
          val (right, body, rest) = sides rest
        in
          case function (patterns, right) of
            right as At (_, A.Function _) => (At (start, A.LetRec (name, right, body)), rest)
          | At (place, _) => fail place "only a function can be recursive"
        end
    | At (_, T.Rec) :: rest => unexpected (rest, "a name")
    | At (place, T.Name name) :: (rest as At (_, following) :: _) =>
        if beginsPattern following then
          let
            val (patterns, rest) = simples rest
            val (right, body, rest) = sides rest
          in
            (At (start, A.Let (At (place, A.Bound name), function (patterns, right), body)), rest)
          end
        else plain (start, lexemes)
    | _ => plain (start, lexemes)

  and plain (start, lexemes) =
    let
      val (left, rest) = pattern lexemes
      val left = checked left
      val (right, body, rest) = sides rest
    in
      (At (start, A.Let (left, right, body)), rest)
    end

  (* The right side and the body of a binding. *)
  and sides lexemes =
    let
      val (right, rest) = exp (expect (T.Operator "=", lexemes))
      val (body, rest) = exp (expect (T.In, rest))
    in
      (right, body, rest)
    end

  and rules lexemes =
    let
      val (left, rest) = pattern lexemes
      val left = checked left
      val (right, rest) = exp (expect (T.Arrow, rest))
    in
      case token rest of
        T.Bar =>
          let
            val (others, rest) = rules (expect (T.Bar, rest))
          in
            ((left, right) :: others, rest)
          end
      | _ => ([(left, right)], rest)
    end

  (* Operands and operators, none of which is weaker than is said. *)
  and operators (weakest, lexemes) =
    let
      val (left, rest) = operand lexemes
    in
      further (weakest, left, rest)
    end

  and further (weakest, left, lexemes) =
    case lexemes of
      At (_, T.Operator name) :: rest =>
        (case Fixity.find name of
           NONE => (left, lexemes)
         | SOME {strength, side} =>
             if strength < weakest then (left, lexemes)
             else
               let
                 val least = if side = Fixity.Right then strength else strength + 1
                 val (right, rest) = operators (least, rest)
                 val both = At (Place.placeOf left, A.Infix (name, left, right))
               in
                 ( if side = Fixity.Neither then single (strength, rest) else ()
                 ; further (weakest, both, rest)
                 )
               end)
    | _ => (left, lexemes)

  (* Refuses one more operator of a strength that stands once. *)
  and single (strength, lexemes) =
    case lexemes of
      At (place, T.Operator name) :: _ =>
        (case Fixity.find name of
           SOME {strength = other, side = _} =>
             if other = strength then fail place (name ^ " can't go on behind a comparison") else ()
         | NONE => ())
    | _ => ()

  and operand lexemes =
    case lexemes of
      At (start, T.Operator "-") :: rest =>
        let
          val (negated, rest) = operand rest
        in
          (At (start, A.Negate negated), rest)
        end
    | _ =>
        let
          val (first, rest) = atom lexemes
        in
          arguments (first, rest)
        end

  and arguments (function, lexemes) =
    if beginsAtom (token lexemes) then
      let
        val (argument, rest) = atom lexemes
      in
        arguments (At (Place.placeOf function, A.Apply (function, argument)), rest)
      end
    else (function, lexemes)

  (* What begins a simple pattern begins an atom, but for one mark. *)
  and beginsAtom token = token <> T.Underscore andalso beginsPattern token

  and front (x, xs) = A.Infix ("::", x, xs)

  and atom [] = unexpected ([], "an expression")
    | atom (lexemes as At (start, token) :: rest) =
        case token of
          T.Name name => (At (start, A.Variable name), rest)
        | T.OpenParen =>
            inParens {unit = A.Constant A.Unit, pair = A.Pair, phrase = exp} (start, rest)
        | T.OpenBracket => inBrackets {nothing = A.Nil, front = front, phrase = exp} (start, rest)
        | _ =>
            case constant token of
              SOME value => (At (start, A.Constant value), rest)
            | NONE => unexpected (lexemes, "an expression")

  fun parse text =
    let
      val (tree, rest) = exp (Lexer.lex text)
    in
      case token rest of
        T.End => tree
      | _ => unexpected (rest, "an operator or the end")
    end
end

structure Parser = ParserFn (Lexer)
