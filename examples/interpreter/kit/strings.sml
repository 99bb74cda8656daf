structure Strings :> STRINGS =
struct
  (* Characters are compared by their codes, since nothing is overloaded in this part of the
     language: `<=` compares integers. *)
  fun lies (low, high) c = ord low <= ord c andalso ord c <= ord high

  val isDigit = lies (#"0", #"9")

  fun isLetter c = lies (#"a", #"z") c orelse lies (#"A", #"Z") c

  fun isBlank c = Lists.member (c, [#" ", #"\t", #"\r", #"\n"])

  fun toInt digits =
    Lists.foldl (fn (c, n) => 10 * n + (ord c - ord #"0")) 0 (explode digits)

  fun fromInt n =
    case explode (Int.toString n) of
      #"~" :: digits => implode (#"-" :: digits)
    | digits => implode digits

  fun escaped #"\n" = "\\n"
    | escaped #"\"" = "\\\""
    | escaped #"\\" = "\\\\"
    | escaped c = str c

  fun quoted s = "\"" ^ concat (Lists.map escaped (explode s)) ^ "\""

  fun join gap strings = concat (Lists.between gap strings)

  fun spaces n = if n <= 0 then "" else " " ^ spaces (n - 1)

  fun lines text =
    let
      fun cut ([], line) = [implode (rev line)]
        | cut (#"\n" :: cs, line) = implode (rev line) :: cut (cs, [])
        | cut (c :: cs, line) = cut (cs, c :: line)
    in
      cut (explode text, [])
    end
end
