(* Nodes, and edges from one to another. *)
signature GRAPH =
sig
  type node
  type graph

  val fromEdges : (node * node) list -> graph

  (* The nodes to which edges lead from a node, in their order. *)
  val next : graph * node -> node list

  (* The nodes to which some way leads, from a node that is one of them. *)
  val reachable : graph * node -> node list

  (* A shortest way from one node to another, both included. *)
  exception NoWay
  val way : graph * node * node -> node list
end
