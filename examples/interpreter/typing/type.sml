structure Type :> TYPE =
struct
  datatype ty
    = Integer
    | Boolean
    | String
    | Unit
    | List of ty
    | Pair of ty * ty
    | Arrow of ty * ty
    | Open of state ref
    | Generic of int

  and state
    = Unknown of {number : int, level : int}
    | Known of ty

  type scheme = ty

  fun view (ty as Open (ref (Known known))) = view known
    | view ty = ty

  val count = ref 0

  fun unknown level =
    (count := !count + 1; Open (ref (Unknown {number = !count, level = level})))

  (* The type with something else in the place of each part that is unknown or generic. *)
  fun replaced {onUnknown, onGeneric} ty =
    let
      fun go ty =
        case view ty of
          List t => List (go t)
        | Pair (t, u) => Pair (go t, go u)
        | Arrow (t, u) => Arrow (go t, go u)
        | Open (state as ref (Unknown facts)) => onUnknown (state, facts)
        | Generic n => onGeneric n
        | other => other
    in
      go ty
    end

  (* A function of numbers that is called once for each, with how many others were there before. *)
  fun remembered f =
    let
      val known = ref []
      fun answer n =
        case Lists.first (fn (m, x) => if m = n then SOME x else NONE) (!known) of
          SOME x => x
        | NONE =>
            let
              val x = f (length (!known))
            in
              (known := (n, x) :: !known; x)
            end
    in
      answer
    end

  fun plain ty = ty

  (* An unknown part that nothing else can reach becomes generic for good: with its own number. *)
  fun generalised outer ty =
    replaced
      { onUnknown = fn (state, {number, level}) =>
          if level > outer then Generic number else Open state
      , onGeneric = Generic
      }
      ty

  fun instance level scheme =
    let
      val choose = remembered (fn _ => unknown level)
    in
      replaced {onUnknown = fn (state, _) => Open state, onGeneric = choose} scheme
    end

  (* The names 'a, 'b and so on, and behind 'z the names 'a1, 'b1. *)
  fun letter n =
    "'" ^ str (chr (ord #"a" + n mod 26)) ^ (if n < 26 then "" else Int.toString (n div 26))

  (* How tightly a type has to hold together where it stands. *)
  datatype strength = Whole | Argument | Atom

  fun toStrings types =
    let
      val name = remembered letter

      fun parens (isNeeded, s) = if isNeeded then "(" ^ s ^ ")" else s

      fun show strength ty =
        case view ty of
          Integer => "int"
        | Boolean => "bool"
        | String => "string"
        | Unit => "unit"
        | List t => show Atom t ^ " list"
        | Pair (t, u) => parens (strength = Atom, show Atom t ^ " * " ^ show Atom u)
        | Arrow (t, u) => parens (strength <> Whole, show Argument t ^ " -> " ^ show Whole u)
        | Open (ref (Unknown {number, level = _})) => name number
        | Open (ref (Known known)) => show strength known
        | Generic n => name n
    in
      Lists.map (show Whole) types
    end
end
