(* What is done with lists. *)
signature LISTS =
sig
  val map : ('a -> 'b) -> 'a list -> 'b list
  val app : ('a -> unit) -> 'a list -> unit

  (* `foldl f x [a, b]` is `f (b, f (a, x))`, and `foldr f x [a, b]` is `f (a, f (b, x))`. *)
  val foldl : ('a * 'b -> 'b) -> 'b -> 'a list -> 'b
  val foldr : ('a * 'b -> 'b) -> 'b -> 'a list -> 'b

  val exists : ('a -> bool) -> 'a list -> bool
  val member : ''a * ''a list -> bool

  (* The first item of which the function answers something, with this answer. *)
  val first : ('a -> 'b option) -> 'a list -> 'b option

  (* The first item that stands in the list before, if there is one. *)
  val repeated : ''a list -> ''a option

  (* The items with something between each two of them. *)
  val between : 'a -> 'a list -> 'a list
end
