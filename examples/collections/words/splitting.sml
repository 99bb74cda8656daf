(* Texts into lines, and lines into words. *)
structure Splitting =
struct
  (* The pieces between characters at which a text is parted, without the empty ones. *)
  fun pieces parts text =
    let
      fun add ([], all) = all
        | add (piece, all) = implode (rev piece) :: all
      fun go ([], piece, all) = rev (add (piece, all))
        | go (c :: cs, piece, all) =
            if parts c then go (cs, [], add (piece, all)) else go (cs, c :: piece, all)
    in
      go (explode text, [], [])
    end

  (* (Characters are compared by their codes, since `<=` is for integers alone in this part of the
     language.) *)
  fun isBetween (low, high) c = ord low <= ord c andalso ord c <= ord high

  fun isLetter c = isBetween (#"a", #"z") c orelse isBetween (#"A", #"Z") c

  fun lower c = if isBetween (#"A", #"Z") c then chr (ord c + (ord #"a" - ord #"A")) else c

  val lines = pieces (fn c => c = #"\n")

  fun words line =
    let
      fun lowered [] = []
        | lowered (c :: cs) = lower c :: lowered cs
    in
      pieces (fn c => not (isLetter c)) (implode (lowered (explode line)))
    end
end
