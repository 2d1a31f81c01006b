% Life with a glider, which walks down to the right over a ring of rows and columns.
[top]
components : life

[life]
type : cell
dim : (7,7)
delay : transport
border : wrapped
neighbors : life(-1,-1) life(-1,0) life(-1,1)
neighbors : life(0,-1) life(0,0) life(0,1)
neighbors : life(1,-1) life(1,0) life(1,1)
initialvalue : 0
initialcellsvalue : glider.val
localtransition : conway

[conway]
rule : 1 100 { (0,0) = 1 and (truecount = 3 or truecount = 4) }
rule : 1 100 { (0,0) = 0 and truecount = 3 }
rule : 0 100 { t }
