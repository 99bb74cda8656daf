functor ValueFn (Env : MAP where type key = string) :> VALUE where type 'a env = 'a Env.map =
struct
  type 'a env = 'a Env.map

  datatype value
    = Integer of int
    | Boolean of bool
    | String of string
    | Unit
    | List of value list
    | Pair of value * value
    | Closure of Ast.pattern Place.at * Ast.exp Place.at * value env ref
    | Builtin of value -> value

  exception Function

  fun isFunction (Closure _) = true
    | isFunction (Builtin _) = true
    | isFunction _ = false

  fun equal (Integer m, Integer n) = m = n
    | equal (Boolean a, Boolean b) = a = b
    | equal (String s, String t) = s = t
    | equal (Unit, Unit) = true
    | equal (List [], List []) = true
    | equal (List (x :: xs), List (y :: ys)) = equal (x, y) andalso equal (List xs, List ys)
    | equal (Pair (x, x'), Pair (y, y')) = equal (x, y) andalso equal (x', y')
    | equal (x, y) = if isFunction x orelse isFunction y then raise Function else false

  fun toString value =
    case value of
      Integer n => Strings.fromInt n
    | Boolean true => "true"
    | Boolean false => "false"
    | String s => Strings.quoted s
    | Unit => "()"
    | List values => "[" ^ Strings.join ", " (Lists.map toString values) ^ "]"
    | Pair (first, second) => "(" ^ toString first ^ ", " ^ toString second ^ ")"
    | Closure _ => "fn"
    | Builtin _ => "fn"
end
