abstract Home = {
  flags startcat = Cmd ;
  cat Cmd ; Kind ; Action Kind ; Device Kind ; Tag Kind ;
  fun
    Do : (k : Kind) -> Action k -> Device k -> Cmd ;
    Wait : Kind -> Cmd ;
    Same : (k : Kind) -> Tag k -> Cmd ;
    Age : Int -> Cmd ;
    light, fan : Kind ;
    dim : Action light ;
    spin : Action fan ;
    on : (k : Kind) -> Action k ;
    The : (k : Kind) -> Device k ;
    mk : (k : Kind) -> Tag k ;
}
