instance WordsEng of Words = {
  oper
    a_word = "a" ;
    circle_word = "circle" ;
    square_word = "square" ;
    red_word = "red" ;
    blue_word = "blue" ;
    colour_side = Before ;
}
