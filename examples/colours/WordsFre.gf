instance WordsFre of Words = {
  oper
    a_word = "un" ;
    circle_word = "cercle" ;
    square_word = "carré" ;
    red_word = "rouge" ;
    blue_word = "bleu" ;
    colour_side = After ;
}
