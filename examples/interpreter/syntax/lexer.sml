(* Blanks separate lexemes, and so do comments, from `#` to the end of the line. Each function takes
   what is left of the text, and answers what is left behind the part that it reads. *)
structure Lexer :> LEXER =
struct
  type rest = char list * Place.place    (* what is left of a text, and where *)

  fun fail place message = Report.fail Report.Lexing place message

  (* The longest front whose characters all pass. *)
  fun span passes (text, place) : string * rest =
    let
      fun go (taken, [], place) = (implode (rev taken), ([], place))
        | go (taken, text as c :: cs, place) =
            if passes c then go (c :: taken, cs, Place.next (place, c))
            else (implode (rev taken), (text, place))
    in
      go ([], text, place)
    end

  fun isNamed c = Strings.isLetter c orelse Strings.isDigit c orelse c = #"_" orelse c = #"'"

  fun integer (rest as (_, place)) =
    let
      val (digits, rest) = span Strings.isDigit rest
    in
      (Token.Integer (Strings.toInt digits), rest)
      handle Overflow => fail place ("the number " ^ digits ^ " is too large")
    end

  (* What stands behind an opening quote, up to the closing one. *)
  fun string (start, text, place) =
    let
      fun go (taken, text, place) =
        case text of
          #"\"" :: cs => (Token.String (implode (rev taken)), (cs, Place.next (place, #"\"")))
        | #"\\" :: c :: cs =>
            (case c of
               #"n" => go (#"\n" :: taken, cs, past (place, c))
             | #"\"" => go (#"\"" :: taken, cs, past (place, c))
             | #"\\" => go (#"\\" :: taken, cs, past (place, c))
             | _ => fail place ("there is no escape \\" ^ str c))
        | #"\n" :: _ => fail start "a string ends on its line"
        | c :: cs => go (c :: taken, cs, Place.next (place, c))
        | [] => fail start "a string isn't ended"

      (* The place behind a backslash and a character. *)
      and past (place, c) = Place.next (Place.next (place, #"\\"), c)
    in
      go ([], text, place)
    end

  (* What is left behind a mark, where the text begins with it. *)
  fun behind (mark, (text, place)) =
    let
      fun go ([], text, place) = SOME (text, place)
        | go (m :: ms, c :: cs, place) = if m = c then go (ms, cs, Place.next (place, c)) else NONE
        | go (_, [], _) = NONE
    in
      go (explode mark, text, place)
    end

  fun mark (rest as (text, place) : rest) =
    let
      fun attempt (written, token) =
        case behind (written, rest) of
          SOME rest => SOME (token, rest)
        | NONE => NONE
    in
      case (Lists.first attempt Token.marks, text) of
        (SOME found, _) => found
      | (NONE, c :: _) => fail place ("nothing begins with " ^ str c)
      | (NONE, []) => (Token.End, rest)
    end

  fun lexeme (rest as (c :: cs, place)) =
        if Strings.isDigit c then integer rest
        else if Strings.isLetter c then
          let val (word, rest) = span isNamed rest in (Token.word word, rest) end
        else if c = #"\"" then string (place, cs, Place.next (place, c))
        else mark rest
    | lexeme rest = (Token.End, rest)

  fun separators rest =
    let
      val (_, rest) = span Strings.isBlank rest
    in
      case rest of
        (#"#" :: _, _) => let val (_, rest) = span (fn c => c <> #"\n") rest in separators rest end
      | _ => rest
    end

  fun lex text =
    let
      fun go (lexemes, rest) =
        let
          val rest as (_, place) = separators rest
          val (token, rest) = lexeme rest
          val lexemes = Place.At (place, token) :: lexemes
        in
          if token = Token.End then rev lexemes else go (lexemes, rest)
        end
    in
      go ([], (explode text, Place.start))
    end
end
