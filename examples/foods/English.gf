-- Nouns and determiners of English.
resource English = {
  param
    Number = Sg | Pl ;

  oper
    Noun : Type = {s : Number => Str} ;

    noun = overload {
      noun : Str -> Noun = \sg -> forms sg (plural sg) ;
      noun : Str -> Str -> Noun = \sg, pl -> forms sg pl ;
    } ;

    forms : Str -> Str -> Noun = \sg, pl -> {s = table {Sg => sg ; Pl => pl}} ;

    plural : Str -> Str = \w -> case w of {
      x + ("a" | "e" | "o") + "y" => w + "s" ;
      x + "y"                     => x + "ies" ;
      x + ("s" | "sh" | "ch")     => w + "es" ;
      _                           => w + "s"
    } ;

    be : Number => Str = table {Sg => "is" ; Pl => "are"} ;

    determiner : Number -> Str -> Noun -> {s : Str ; n : Number} =
      \n, word, kind -> {s = word ++ kind.s ! n ; n = n} ;
}
