concrete ColoursEng of Colours = ColoursI with (Words = WordsEng)
