(* A net of trains, with the towns as strings. *)
structure Trains =
struct
  structure Net = GraphFn (StringKey)

  (* Trains go to and fro. *)
  fun both [] = []
    | both ((one, other) :: edges) = (one, other) :: (other, one) :: both edges

  val net =
    Net.fromEdges
      (both
        [ ("Basel", "Bern"), ("Basel", "Zurich"), ("Bern", "Thun"), ("Bern", "Lausanne")
        , ("Lausanne", "Geneva"), ("Zurich", "Chur"), ("Zurich", "Lugano"), ("Oslo", "Bergen")
        ])
end
