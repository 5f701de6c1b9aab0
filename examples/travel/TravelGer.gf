concrete TravelGer of Travel = {
  param Case = Nominative | Dative ;

  lincat
    Phrase, Number = {s : Str} ;
    Place = {s : Case => Str} ;

  oper
    place : Str -> Str -> Str -> {s : Case => Str} = \der, dem, noun ->
      {s = table {Nominative => der ++ noun ; Dative => dem ++ noun}} ;

  lin
    WhereIs it = {s = "wo" ++ "ist" ++ it.s ! Nominative} ;
    Tickets number it = {s = number.s ++ "zu" ++ it.s ! Dative} ;
    Please phrase = {s = "bitte" ++ phrase.s} ;
    Station = place "der" "dem" "Bahnhof" ;
    Museum = place "das" "dem" "Museum" ;
    Sea = place "das" "dem" "Meer" ;
    One = {s = ["eine Karte"]} ;
    Two = {s = ["zwei Karten"]} ;
}
