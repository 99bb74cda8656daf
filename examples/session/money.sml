structure Money =
struct
  datatype currency = Franc

  fun show (amount, Franc) = Int.toString amount ^ " francs"
end
