structure Index :> INDEX =
struct
  structure Lines = SetFn (IntKey)
  structure Words = MapFn (StringKey)

  type index = Lines.set Words.map

  fun make text =
    let
      fun addWords (index, _, []) = index
        | addWords (index, n, word :: words) =
            addWords (Words.insertWith Lines.union (index, word, Lines.singleton n), n, words)
      fun addLines (index, _, []) = index
        | addLines (index, n, line :: lines) =
            addLines (addWords (index, n, Splitting.words line), n + 1, lines)
    in
      addLines (Words.empty, 1, Splitting.lines text)
    end

  fun linesOf (index, word) =
    case Words.find (index, word) of
      SOME lines => lines
    | NONE => Lines.empty

  fun find (index, word) = Lines.toList (linesOf (index, word))

  fun findAll (index, words) =
    let
      fun also (lines, []) = lines
        | also (lines, word :: words) =
            also (Lines.intersection (lines, linesOf (index, word)), words)
    in
      case words of
        [] => []
      | word :: others => Lines.toList (also (linesOf (index, word), others))
    end

  fun toString index =
    let
      fun number (n, text) = text ^ " " ^ Int.toString n
      fun entry (word, lines, text) = text ^ word ^ ":" ^ Lines.foldl number "" lines ^ "\n"
    in
      Words.foldl entry "" index
    end
end
