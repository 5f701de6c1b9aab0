concrete TravelEng of Travel = {
  param Count = Single | Many ;

  lincat
    Phrase, Place = {s : Str} ;
    Number = {s : Str ; c : Count} ;

  lin
    WhereIs place = {s = "where" ++ "is" ++ place.s} ;
    Tickets number place =
      {s = number.s ++ table {Single => "ticket" ; Many => "tickets"} ! number.c ++ "to" ++ place.s} ;
    Please phrase = {s = phrase.s ++ "please"} ;
    Station = {s = ["the station"]} ;
    Museum = {s = ["the museum"]} ;
    Sea = {s = ["the sea"]} ;
    One = {s = "one" ; c = Single} ;
    Two = {s = "two" ; c = Many} ;
}
