(* The lexemes of a program. *)
structure Token =
struct
  datatype token
    = Integer of int
    | String of string
    | Name of string
    | Operator of string
    | Let | Rec | In
    | If | Then | Else
    | Fn | Case | Of
    | True | False
    | Arrow | Bar | Comma | Underscore
    | OpenParen | CloseParen
    | OpenBracket | CloseBracket
    | End

  (* A word is a name, where it isn't reserved. *)
  fun word "let" = Let
    | word "rec" = Rec
    | word "in" = In
    | word "if" = If
    | word "then" = Then
    | word "else" = Else
    | word "fn" = Fn
    | word "case" = Case
    | word "of" = Of
    | word "true" = True
    | word "false" = False
    | word "and" = Operator "and"
    | word "or" = Operator "or"
    | word name = Name name

  fun operators names = Lists.map (fn name => (name, Operator name)) names

  (* The marks, the longer ones first. *)
  val marks =
    [("=>", Arrow)]
    @ operators ["::", "<=", ">=", "<>", "=", "<", ">", "^", "+", "-", "*", "/", "%"]
    @ [ ("|", Bar), (",", Comma), ("_", Underscore)
      , ("(", OpenParen), (")", CloseParen), ("[", OpenBracket), ("]", CloseBracket)
      ]

  fun toString (Integer n) = Strings.fromInt n
    | toString (String s) = Strings.quoted s
    | toString (Name name) = name
    | toString (Operator name) = name
    | toString Let = "let"
    | toString Rec = "rec"
    | toString In = "in"
    | toString If = "if"
    | toString Then = "then"
    | toString Else = "else"
    | toString Fn = "fn"
    | toString Case = "case"
    | toString Of = "of"
    | toString True = "true"
    | toString False = "false"
    | toString End = "the end"
    | toString mark =
        let
          fun spelling (written, token) = if token = mark then SOME written else NONE
        in
          case Lists.first spelling marks of
            SOME written => written
          | NONE => "?"
        end
end
