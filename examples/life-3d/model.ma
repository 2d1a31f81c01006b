% Life in three dimensions, by the rule 4555: a live cell with 4 or 5 live neighbours goes on, and with 5 one is born.
[top]
components : life

[life]
type : cell
dim : (5,5,5)
delay : transport
border : wrapped
neighbors : life(-1,-1,-1) life(-1,-1,0) life(-1,-1,1)
neighbors : life(-1,0,-1) life(-1,0,0) life(-1,0,1)
neighbors : life(-1,1,-1) life(-1,1,0) life(-1,1,1)
neighbors : life(0,-1,-1) life(0,-1,0) life(0,-1,1)
neighbors : life(0,0,-1) life(0,0,0) life(0,0,1)
neighbors : life(0,1,-1) life(0,1,0) life(0,1,1)
neighbors : life(1,-1,-1) life(1,-1,0) life(1,-1,1)
neighbors : life(1,0,-1) life(1,0,0) life(1,0,1)
neighbors : life(1,1,-1) life(1,1,0) life(1,1,1)
initialvalue : 0
initialcellsvalue : blinker.val
localtransition : bays

[bays]
% truecount counts the cell itself too
rule : 1 100 { (0,0,0) = 1 and (truecount = 5 or truecount = 6) }
rule : 1 100 { (0,0,0) = 0 and truecount = 5 }
rule : 0 100 { t }
