-- Nouns, adjectives and determiners of Italian.
resource Italiano = {
  param
    Number = Sg | Pl ;
    Gender = Masc | Fem ;

  oper
    Noun : Type = {s : Number => Str ; g : Gender} ;
    Adjective : Type = {s : Gender => Number => Str} ;

    noun : Str -> Noun = \w -> case w of {
      vin + "o" => {s = forms w (vin + "i") ; g = Masc} ;
      pizz + "a" => {s = forms w (pizz + "e") ; g = Fem} ;
      pesc + "e" => {s = forms w (pesc + "i") ; g = Masc}
    } ;

    adjective = overload {
      adjective : Str -> Adjective = \w -> case w of {
        nero + "o" => four w (nero + "a") (nero + "i") (nero + "e") ;
        _ => four w w w w
      } ;
      adjective : (_, _, _, _ : Str) -> Adjective = four ;
    } ;

    four : (_, _, _, _ : Str) -> Adjective = \ms, fs, mp, fp ->
      {s = table {Masc => forms ms mp ; Fem => forms fs fp}} ;

    forms : Str -> Str -> Number => Str = \sg, pl -> table {Sg => sg ; Pl => pl} ;

    be : Number => Str = forms "è" "sono" ;

    determiner : Number -> Str -> Str -> Noun -> {s : Str ; n : Number ; g : Gender} =
      \n, masc, fem, kind ->
        {s = table {Masc => masc ; Fem => fem} ! kind.g ++ kind.s ! n ; n = n ; g = kind.g} ;
}
