% Life with one blinker: three cells in a row, which turn upright and back.
[top]
components : life

[life]
type : cell
dim : (5,5)
delay : transport
border : wrapped
neighbors : life(-1,-1) life(-1,0) life(-1,1)
neighbors : life(0,-1) life(0,0) life(0,1)
neighbors : life(1,-1) life(1,0) life(1,1)
initialvalue : 0
initialrowvalue : 2 01110
localtransition : conway

[conway]
% truecount counts the cell itself too, since (0,0) is among the neighbours.
rule : 1 100 { (0,0) = 1 and (truecount = 3 or truecount = 4) }
rule : 1 100 { (0,0) = 0 and truecount = 3 }
rule : 0 100 { t }
