structure Main =
struct
  (* What `String.concatWith` and `List.map` do elsewhere: this part of the language has no `List`. *)
  fun joined gap [] = ""
    | joined gap [word] = word
    | joined gap (word :: words) = word ^ gap ^ joined gap words

  fun numbers [] = []
    | numbers (n :: ns) = Int.toString n :: numbers ns

  val index =
    Index.make
      "Sets and maps by functors\n\
      \are what a library may hide:\n\
      \sets of lines, and maps of sets.\n"

  val () = print (Index.toString index)
  val () = print ("sets: " ^ joined ", " (numbers (Index.find (index, "sets"))) ^ "\n")
  val () =
    print ("of and maps: " ^ joined ", " (numbers (Index.findAll (index, ["of", "maps"]))) ^ "\n")

  fun showWay (one, other) =
    print (joined " - " (Trains.Net.way (Trains.net, one, other)) ^ "\n")
    handle Trains.Net.NoWay => print ("no train goes from " ^ one ^ " to " ^ other ^ "\n")

  val () = showWay ("Geneva", "Chur")
  val () = showWay ("Thun", "Oslo")
  val () = print (joined ", " (Trains.Net.reachable (Trains.net, "Bergen")) ^ "\n")
end
