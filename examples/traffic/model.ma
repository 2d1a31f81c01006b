% Cars on a ring of twenty places: rule 184, with a slow stretch.
% 0 is an empty place, 1 a car that may go on, 2 a car that has just come into a place of the slow stretch.
[top]
components : road

[road]
type : cell
dim : (1,20)
delay : transport
border : wrapped
neighbors : road(0,-1) road(0,0) road(0,1)
initialvalue : 0
initialrowvalue : 0 10101010101010101010
localtransition : free
zone : slow { (0,12)..(0,15) }

[free]
rule : 1 100 { (0,0) = 0 and (0,-1) = 1 }
rule : 0 100 { (0,0) = 1 and (0,1) = 0 }
rule : { (0,0) } 100 { t }

[slow]
rule : 2 100 { (0,0) = 0 and (0,-1) = 1 }
rule : 1 100 { (0,0) = 2 }
rule : 0 100 { (0,0) = 1 and (0,1) = 0 }
rule : { (0,0) } 100 { t }
