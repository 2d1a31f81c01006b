% Fire over a field with wind from the west. A cell holds the second at which the fire came, and ? before.
% From a burning neighbour the fire takes 20 s with the wind, 45 s across it, and 90 s against it.
[top]
components : field

[field]
type : cell
dim : (5,9)
delay : inertial
border : nowrapped
neighbors : field(0,0) field(0,-1) field(0,1) field(-1,0) field(1,0)
initialvalue : ?
initialrow : 2 ? ? 0 ? ? ? ? 0 ?
localtransition : burn
zone : stone { (0,4)..(1,4) }

[burn]
% a burnt cell stays as it is
rule : { (0,0) } 1000 { not isundefined((0,0)) }
% some neighbour burns: the least of all ways to here; a neighbour that doesn't burn is far away
rule : { min(min(ifu((0,-1) >= 0, (0,-1) + 20, 0, 99999), ifu((0,1) >= 0, (0,1) + 90, 0, 99999)),
             min(ifu((-1,0) >= 0, (-1,0) + 45, 0, 99999), ifu((1,0) >= 0, (1,0) + 45, 0, 99999))) } {
         1000 * min(min(ifu((0,-1) >= 0, (0,-1) + 20, 0, 99999), ifu((0,1) >= 0, (0,1) + 90, 0, 99999)),
                    min(ifu((-1,0) >= 0, (-1,0) + 45, 0, 99999), ifu((1,0) >= 0, (1,0) + 45, 0, 99999))) - time } { undefcount < 5 }
rule : ? 1000 { t }

[stone]
rule : ? 1000 { t }
