% An excitable medium: 0 is at rest, 1 is excited, 2 recovers. A broken front winds itself up.
[top]
components : tissue

[tissue]
type : cell
dim : (9,9)
delay : transport
border : nowrapped
neighbors : tissue(0,0) tissue(-1,0) tissue(1,0) tissue(0,-1) tissue(0,1)
initialvalue : 0
initialrowvalue : 4 111110000
initialrowvalue : 5 222220000
localtransition : fire

[fire]
rule : 2 100 { (0,0) = 1 }
rule : 0 100 { (0,0) = 2 }
rule : 1 100 { (0,0) = 0 and truecount > 0 }
rule : { (0,0) } 100 { t }
