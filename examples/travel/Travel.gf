-- Phrases of a traveller.
abstract Travel = {
  flags startcat = Phrase ;

  cat
    Phrase ; Place ; Number ;

  fun
    WhereIs : Place -> Phrase ;
    Tickets : Number -> Place -> Phrase ;
    Please : Phrase -> Phrase ;
    Station, Museum, Sea : Place ;
    One, Two : Number ;
}
