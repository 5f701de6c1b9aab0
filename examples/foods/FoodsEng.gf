concrete FoodsEng of Foods = open English in {
  lincat
    Comment, Quality = {s : Str} ;
    Kind = Noun ;
    Item = {s : Str ; n : Number} ;

  lin
    Is item quality = {s = item.s ++ be ! item.n ++ quality.s} ;
    This kind = determiner Sg "this" kind ;
    That kind = determiner Sg "that" kind ;
    These kind = determiner Pl "these" kind ;
    Those kind = determiner Pl "those" kind ;
    With quality kind = {s = \\n => quality.s ++ kind.s ! n} ;
    Very quality = {s = "very" ++ quality.s} ;
    Wine = noun "wine" ;
    Cheese = noun "cheese" ;
    Fish = noun "fish" "fish" ;
    Pizza = noun "pizza" ;
    Fresh = {s = "fresh"} ;
    Warm = {s = "warm"} ;
    Boring = {s = "boring"} ;
    Expensive = {s = "expensive"} ;
    Italian = {s = "Italian"} ;
}
