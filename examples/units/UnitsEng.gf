concrete UnitsEng of Units = {
  lincat Claim, Unit, Quantity = {s : Str} ;
  lin
    Metre = {s = "metres"} ;
    Litre = {s = "litres"} ;
    Of number unit = {s = number.s ++ unit.s} ;
    Plus _ x y = {s = x.s ++ "and" ++ y.s} ;
    Equal _ x y = {s = x.s ++ "are" ++ y.s} ;
    Any _ x = {s = "some" ++ x.s} ;
}
