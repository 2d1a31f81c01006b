% Surface tension: each place goes with the majority around it, but a narrow defeat wins.
[top]
components : film

[film]
type : cell
dim : (8,8)
delay : transport
border : wrapped
neighbors : film(-1,-1) film(-1,0) film(-1,1)
neighbors : film(0,-1) film(0,0) film(0,1)
neighbors : film(1,-1) film(1,0) film(1,1)
initialmapvalue : film.map
localtransition : vote

[vote]
rule : 1 100 { truecount = 4 or truecount > 5 }
rule : 0 100 { t }
