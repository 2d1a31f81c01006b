% A pile of sand. A place with four grains or more topples: one grain goes to each of the four around. Grains come by events.
[top]
components : pile
in : grain
link : grain drop@pile

[pile]
type : cell
dim : (5,5)
delay : transport
border : nowrapped
neighbors : pile(0,0) pile(-1,0) pile(1,0) pile(0,-1) pile(0,1)
initialmapvalue : grains.map
in : drop
link : drop grain@pile(2,2)
portintransition : grain@pile(2,2) feed
localtransition : topple

[topple]
% outside the pile a neighbour is ?, and gives nothing: what goes over the edge is lost
rule : { (0,0) - if((0,0) >= 4, 4, 0)
         + ifu((-1,0) >= 4, 1, 0, 0) + ifu((1,0) >= 4, 1, 0, 0)
         + ifu((0,-1) >= 4, 1, 0, 0) + ifu((0,1) >= 4, 1, 0, 0) } 100 { t }

[feed]
rule : { (0,0) + portvalue(thisport) } 100 { t }
