(* The types that are keys most often. *)
structure IntKey : ORDERED =
struct
  type t = int
  val compare = Int.compare
end

structure StringKey : ORDERED =
struct
  type t = string
  val compare = String.compare
end
