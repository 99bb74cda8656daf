signature LEXER =
sig
  (* The lexemes of a program with their places; the last one is `End`. Raises `Report.Error`. *)
  val lex : string -> Token.token Place.at list
end
