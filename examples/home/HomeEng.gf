concrete HomeEng of Home = {
  lincat
    Cmd, Kind, Action, Device, Tag = {s : Str} ;
  lin
    Do k a d = {s = a.s ++ d.s} ;
    Wait k = {s = "wait"} ;
    Same k t = t ;
    Age n = {s = "age" ++ n.s} ;
    light = {s = "light"} ;
    fan = {s = "fan"} ;
    dim = {s = "dim"} ;
    spin = {s = "spin"} ;
    on k = {s = "on"} ;
    The k = {s = "the" ++ k.s} ;
    mk k = {s = "tag"} ;
}
