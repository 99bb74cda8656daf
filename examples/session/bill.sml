structure Bill =
struct
  fun total [] = 0
    | total (price :: prices) = price + total prices

  fun show prices = Money.show (total prices, Money.Franc)
end
