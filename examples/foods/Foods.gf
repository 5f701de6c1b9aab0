-- What can be said of food: which item, and what it is like.
abstract Foods = {
  flags startcat = Comment ;

  cat
    Comment ; Item ; Kind ; Quality ;

  fun
    Is : Item -> Quality -> Comment ;
    This, That, These, Those : Kind -> Item ;
    With : Quality -> Kind -> Kind ;
    Very : Quality -> Quality ;
    Wine, Cheese, Fish, Pizza : Kind ;
    Fresh, Warm, Boring, Expensive, Italian : Quality ;
}
