signature PRINTER =
sig
  (* The text of a program, in lines of a width where that can be, and with no more parentheses
     than it needs: the parser makes the same tree of it, but for the places. *)
  val print : int -> Ast.exp Place.at -> string
end

structure Printer :> PRINTER =
struct
  structure A = Ast
  structure P = Pretty

  datatype at = datatype Place.at

  (* A phrase stands in parentheses where it is weaker than its surroundings allow. *)
  fun within (weakest, strength) doc =
    if strength < weakest then P.row [P.text "(", P.nest 1 doc, P.text ")"] else doc

  fun words list = P.row (Lists.between (P.text " ") list)

  (* Phrases with commas between them, and something around. *)
  fun around (opening, closing) phrases =
    let
      val inside = Lists.between (P.row [P.text ",", P.line]) phrases
    in
      P.group (P.row [P.text opening, P.nest (size opening) (P.row inside), P.text closing])
    end

  val brackets = around ("[", "]")

  fun pair (first, second) = around ("(", ")") [first, second]

  fun constant (A.Integer n) = P.text (Strings.fromInt n)
    | constant (A.Boolean b) = P.text (if b then "true" else "false")
    | constant (A.String s) = P.text (Strings.quoted s)
    | constant A.Unit = P.text "()"

  (* Patterns. *)

  fun elements (At (_, A.EmptyList)) = SOME []
    | elements (At (_, A.Front (first, rest))) =
        (case elements rest of
           SOME others => SOME (first :: others)
         | NONE => NONE)
    | elements _ = NONE

  (* The first argument tells whether the pattern has to be a simple one. *)
  fun pattern isSimple (whole as At (_, p)) =
    case p of
      A.Any => P.text "_"
    | A.Bound name => P.text name
    | A.Exactly c => constant c
    | A.EmptyList => P.text "[]"
    | A.Both (first, second) => pair (pattern false first, pattern false second)
    | A.Front (first, rest) =>
        case elements whole of
          SOME all => brackets (Lists.map (pattern false) all)
        | NONE =>
            within (if isSimple then 1 else 0, 0)
              (P.row [pattern true first, P.text " :: ", pattern false rest])

  (* Expressions. *)

  fun items (At (_, A.Nil)) = SOME []
    | items (At (_, A.Infix ("::", first, rest))) =
        (case items rest of
           SOME others => SOME (first :: others)
         | NONE => NONE)
    | items _ = NONE

  (* What is applied, with all its arguments in front of some more. *)
  fun spine (At (_, A.Apply (function, argument)), arguments) =
        spine (function, argument :: arguments)
    | spine (function, arguments) = (function, arguments)

  (* The patterns of functions in one another, and the body of the innermost. *)
  fun parameters (At (_, A.Function (p, body))) =
        let val (others, body) = parameters body in (p :: others, body) end
    | parameters body = ([], body)

  (* Whether a `|` behind a phrase would belong to it. *)
  fun isOpen (At (_, exp)) =
    case exp of
      A.Case _ => true
    | A.Let (_, _, body) => isOpen body
    | A.LetRec (_, _, body) => isOpen body
    | A.If (_, _, no) => isOpen no
    | A.Function (_, body) => isOpen body
    | _ => false

  fun phrase weakest (whole as At (_, e)) =
    case e of
      A.Constant c => constant c
    | A.Variable name => P.text name
    | A.Nil => P.text "[]"
    | A.Pair (first, second) => pair (phrase 0 first, phrase 0 second)
    | A.Apply _ => within (weakest, Fixity.application) (application (spine (whole, [])))
    | A.Negate negated =>
        within (weakest, Fixity.negation) (P.row [P.text "-", phrase Fixity.negation negated])
    | A.Infix (name, left, right) => operation (weakest, whole, name, left, right)
    | A.Function _ =>
        let
          val (patterns, body) = parameters whole
          val head = P.row [P.text "fn ", words (Lists.map (pattern true) patterns), P.text " =>"]
        in
          within (weakest, 0) (P.group (P.row [head, below 2 (phrase 0 body)]))
        end
    | A.If (test, yes, no) =>
        within (weakest, 0)
          (P.group (P.row
            [ P.text "if ", P.nest 3 (phrase 0 test), P.line
            , P.text "then ", P.nest 5 (phrase 0 yes), P.line
            , P.text "else ", P.nest 5 (phrase 0 no)
            ]))
    | A.Case (subject, rules) =>
        within (weakest, 0)
          (P.group (P.row
            [ P.text "case ", P.nest 5 (phrase 0 subject), P.text " of"
            , choices (P.nest 2 P.line) rules
            ]))
    | A.Let (At (_, A.Bound name), right, body) =>
        let
          val (patterns, right) = parameters right
          val head = words (P.text name :: Lists.map (pattern true) patterns)
        in
          within (weakest, 0) (binding (head, right, body))
        end
    | A.Let (left, right, body) => within (weakest, 0) (binding (pattern false left, right, body))
    | A.LetRec (name, right, body) =>
        let
          val (patterns, right) = parameters right
          val head = words (P.text "rec" :: P.text name :: Lists.map (pattern true) patterns)
        in
          within (weakest, 0) (binding (head, right, body))
        end

  (* A phrase behind another one, or on a line of its own further to the right. *)
  and below columns doc = P.nest columns (P.row [P.line, doc])

  and application (function, arguments) =
    let
      fun argument a = below 2 (phrase (Fixity.application + 1) a)
    in
      P.group (P.row (phrase Fixity.application function :: Lists.map argument arguments))
    end

  and binding (head, right, body) =
    let
      val first =
        P.row [P.text "let ", head, P.text " =", below 2 (phrase 0 right), P.line, P.text "in"]
    in
      P.group (P.row [P.group first, P.line, phrase 0 body])
    end

  and operation (weakest, whole, name, left, right) =
    case (items whole, Fixity.find name) of
      (SOME all, _) => brackets (Lists.map (phrase 0) all)
    | (NONE, NONE) => raise Fail ("no operator: " ^ name)
    | (NONE, SOME {strength, side}) =>
        let
          val onLeft = if side = Fixity.Left then strength else strength + 1
          val onRight = if side = Fixity.Right then strength else strength + 1
        in
          within (weakest, strength)
            (P.group (P.row
              [phrase onLeft left, P.text (" " ^ name), P.line, phrase onRight right]))
        end

  (* Rules, the first behind something and each further one behind a bar. *)
  and choices _ [] = P.row []
    | choices front [rule] = P.row [front, choice (0, rule)]
    | choices front ((rule as (_, right)) :: rules) =
        let
          val weakest = if isOpen right then 1 else 0
        in
          P.row [front, choice (weakest, rule), choices (P.row [P.line, P.text "| "]) rules]
        end

  and choice (weakest, (left, right)) =
    P.row [pattern false left, P.text " =>", P.group (below 4 (phrase weakest right))]

  fun print width program = P.render width (phrase 0 program)
end
