-- Quantities with their unit: only what has one unit can be added or compared.
abstract Units = {
  flags startcat = Claim ;

  cat
    Claim ;
    Unit ;
    Quantity Unit ;

  fun
    Metre, Litre : Unit ;
    Of : Int -> (u : Unit) -> Quantity u ;
    Plus : (u : Unit) -> Quantity u -> Quantity u -> Quantity u ;
    Equal : (u : Unit) -> Quantity u -> Quantity u -> Claim ;
    Any : (u : Unit) -> Quantity u -> Claim ;
}
