concrete ColoursFre of Colours = ColoursI with (Words = WordsFre)
