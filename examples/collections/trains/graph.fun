functor GraphFn (Node : ORDERED) :> GRAPH where type node = Node.t =
struct
  structure Nodes = SetFn (Node)
  structure From = MapFn (Node)

  type node = Node.t
  type graph = Nodes.set From.map

  fun fromEdges edges =
    let
      fun add (graph, []) = graph
        | add (graph, (one, other) :: edges) =
            add (From.insertWith Nodes.union (graph, one, Nodes.singleton other), edges)
    in
      add (From.empty, edges)
    end

  fun nextNodes (graph, node) =
    case From.find (graph, node) of
      SOME nodes => nodes
    | NONE => Nodes.empty

  fun next (graph, node) = Nodes.toList (nextNodes (graph, node))

  (* For each node that is reached the one from which it was reached first, which is the start for
     the start. Each round is over the nodes that were new in the one before. *)
  fun search (graph, start) =
    let
      fun step (node, (known, reached)) =
        let
          fun isNew other = case From.find (known, other) of NONE => true | SOME _ => false
          val found = Nodes.filter isNew (nextNodes (graph, node))
          fun note (other, known) = From.insert (known, other, node)
        in
          (Nodes.foldl note known found, Nodes.union (reached, found))
        end
      fun rounds (known, last) =
        if Nodes.isEmpty last then known else rounds (Nodes.foldl step (known, Nodes.empty) last)
    in
      rounds (From.insert (From.empty, start, start), Nodes.singleton start)
    end

  fun reachable (graph, start) =
    From.foldr (fn (node, _, nodes) => node :: nodes) [] (search (graph, start))

  exception NoWay

  fun way (graph, start, goal) =
    let
      val known = search (graph, start)
      fun back (node, nodes) =
        case (Node.compare (node, start), From.find (known, node)) of
          (EQUAL, _) => node :: nodes
        | (_, SOME last) => back (last, node :: nodes)
        | (_, NONE) => raise NoWay
    in
      back (goal, [])
    end
end
