-- The grammar of pictures in any language that gives the words.
incomplete concrete ColoursI of Colours = open Words in {
  lincat Picture, Shape, Colour = {s : Str} ;
  lin
    Shows shape = {s = a_word ++ shape.s} ;
    In colour shape = {s = case colour_side of {
      Before => colour.s ++ shape.s ;
      After => shape.s ++ colour.s
    }} ;
    Circle = {s = circle_word} ;
    Square = {s = square_word} ;
    Red = {s = red_word} ;
    Blue = {s = blue_word} ;
}
