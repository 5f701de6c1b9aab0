concrete TravelIta of Travel = {
  param Count = Single | Many ;

  lincat
    Phrase = {s : Str} ;
    Place = {s, to : Str} ;
    Number = {s : Str ; c : Count} ;

  lin
    WhereIs place = {s = "dove" ++ "è" ++ place.s} ;
    Tickets number place =
      {s = number.s ++ table {Single => "biglietto" ; Many => "biglietti"} ! number.c ++ place.to} ;
    Please phrase = {s = phrase.s ++ variants {"per" ++ "favore" ; "per" ++ "piacere"}} ;
    Station = {s = ["la stazione"] ; to = ["per la stazione"]} ;
    Museum = {s = ["il museo"] ; to = ["per il museo"]} ;
    Sea = {s = ["il mare"] ; to = ["per il mare"]} ;
    One = {s = "un" ; c = Single} ;
    Two = {s = "due" ; c = Many} ;
}
