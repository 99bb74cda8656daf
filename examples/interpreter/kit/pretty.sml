structure Pretty :> PRETTY =
struct
  datatype doc
    = Plain of string
    | Line of string
    | Row of doc list
    | Nest of int * doc
    | Group of doc

  val text = Plain
  val line = Line " "
  val cut = Line ""
  val row = Row
  fun nest columns doc = Nest (columns, doc)
  val group = Group

  (* Whether a group is laid out on one line, or its lines are broken. *)
  datatype mode = Flat | Broken

  (* A document that is still to be laid out, with the column of its new lines. *)
  type item = int * mode * doc

  fun under (indent, mode) docs rest =
    Lists.foldr (fn (doc, items) => (indent, mode, doc) :: items) rest docs

  (* Whether what stands up to the first place for a new line has at most so many columns. *)
  fun fits (room, items : item list) =
    room >= 0 andalso
    (case items of
       [] => true
     | (_, _, Plain s) :: rest => fits (room - size s, rest)
     | (_, Flat, Line blank) :: rest => fits (room - size blank, rest)
     | (_, Broken, Line _) :: _ => true
     | (indent, mode, Row docs) :: rest => fits (room, under (indent, mode) docs rest)
     | (indent, mode, Nest (columns, doc)) :: rest =>
         fits (room, (indent + columns, mode, doc) :: rest)
     | (indent, mode, Group doc) :: rest => fits (room, (indent, mode, doc) :: rest))

  fun render width doc =
    let
      (* The pieces of the text, the last first, from a column on. *)
      fun layOut (pieces, _, [] : item list) = pieces
        | layOut (pieces, column, (indent, mode, doc) :: rest) =
            case (doc, mode) of
              (Plain s, _) => layOut (s :: pieces, column + size s, rest)
            | (Line blank, Flat) => layOut (blank :: pieces, column + size blank, rest)
            | (Line _, Broken) => layOut (Strings.spaces indent :: "\n" :: pieces, indent, rest)
            | (Row docs, _) => layOut (pieces, column, under (indent, mode) docs rest)
            | (Nest (columns, doc), _) =>
                layOut (pieces, column, (indent + columns, mode, doc) :: rest)
            | (Group doc, _) =>
                let
                  val flat = (indent, Flat, doc)
                  val mode = if fits (width - column, flat :: rest) then Flat else Broken
                in
                  layOut (pieces, column, (indent, mode, doc) :: rest)
                end
    in
      concat (rev (layOut ([], 0, [(0, Broken, doc)])))
    end
end
