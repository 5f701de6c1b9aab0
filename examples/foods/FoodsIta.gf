concrete FoodsIta of Foods = open Italiano in {
  lincat
    Comment = {s : Str} ;
    Quality = Adjective ;
    Kind = Noun ;
    Item = {s : Str ; n : Number ; g : Gender} ;

  lin
    Is item quality = {s = item.s ++ be ! item.n ++ quality.s ! item.g ! item.n} ;
    This = determiner Sg "questo" "questa" ;
    That = determiner Sg "quel" "quella" ;
    These = determiner Pl "questi" "queste" ;
    Those = determiner Pl "quei" "quelle" ;
    With quality kind = {s = \\n => kind.s ! n ++ quality.s ! kind.g ! n ; g = kind.g} ;
    Very quality = {s = \\g, n => "molto" ++ quality.s ! g ! n} ;
    Wine = noun "vino" ;
    Cheese = noun "formaggio" ** {s = forms "formaggio" "formaggi"} ;
    Fish = noun "pesce" ;
    Pizza = noun "pizza" ;
    Fresh = adjective "fresco" "fresca" "freschi" "fresche" ;
    Warm = adjective "caldo" ;
    Boring = adjective "noioso" ;
    Expensive = adjective "caro" ;
    Italian = adjective "italiano" ;
}
