[top]
components : line
[line]
type : cell
dim : (1,3)
delay : transport
defaultDelayTime : 100
border : wrapped
neighbors : line(0,-1) line(0,0) line(0,1)
initialvalue : 0
initialrowvalue : 0 010
localtransition : r
[r]
rule : 1 100 { truecount = 1 }
rule : 0 100 { t }
