-- What a language must give for pictures in it: the words, and on which side of the noun a colour stands.
interface Words = {
  param Side = Before | After ;
  oper
    a_word, circle_word, square_word, red_word, blue_word : Str ;
    colour_side : Side ;
}
