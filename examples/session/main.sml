structure Main =
struct
  val () = print (Bill.show [3, 4] ^ "\n")
end
