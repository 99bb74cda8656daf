structure Unify :> UNIFY =
struct
  open Type

  exception Mismatch
  exception Circular

  (* Looks whether an unknown type stands in a type that it will be. All that is unknown there
     belongs to the lower one of the two levels from now on. *)
  fun prepare (state, level, ty) =
    let
      fun go ty =
        case view ty of
          List t => go t
        | Pair (t, u) => (go t; go u)
        | Arrow (t, u) => (go t; go u)
        | Open (other as ref (Unknown {number, level = own})) =>
            if other = state then raise Circular
            else if own > level then other := Unknown {number = number, level = level}
            else ()
        | _ => ()
    in
      go ty
    end

  fun unify (one, other) =
    case (view one, view other) of
      (Integer, Integer) => ()
    | (Boolean, Boolean) => ()
    | (String, String) => ()
    | (Unit, Unit) => ()
    | (List t, List u) => unify (t, u)
    | (Pair (t, t'), Pair (u, u')) => (unify (t, u); unify (t', u'))
    | (Arrow (t, t'), Arrow (u, u')) => (unify (t, u); unify (t', u'))
    | (Open state, Open state') => if state = state' then () else settle (state, view other)
    | (Open state, ty) => settle (state, ty)
    | (ty, Open state) => settle (state, ty)
    | _ => raise Mismatch

  and settle (state, ty) =
    case !state of
      Unknown {number = _, level} => (prepare (state, level, ty); state := Known ty)
    | Known known => unify (known, ty)
end
