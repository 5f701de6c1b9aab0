abstract Colours = {
  flags startcat = Picture ;
  cat Picture ; Shape ; Colour ;
  fun
    Shows : Shape -> Picture ;
    In : Colour -> Shape -> Shape ;
    Circle, Square : Shape ;
    Red, Blue : Colour ;
}
