% Rain over ground. A cell's value is the water on it, its port ground the height of the ground, and rain what is still to fall on it.
[top]
components : land

[land]
type : cell
dim : (4,5)
delay : transport
border : nowrapped
neighbors : land(0,0) land(-1,0) land(1,0) land(0,-1) land(0,1)
initialmapvalue : heights.map
statevariables : rain
statevalues : 2
neighborports : ground
localtransition : flow

[flow]
% at the start the value is the height: it moves to the port, and the cell is dry
rule : { ~ground := (0,0); ~out := 0; } 100 { time = 0 }
% from each neighbour, or to it, a fifth of the difference of the surfaces, but no more than a quarter of the water there
rule : { (0,0) + 0.5
         + if(isundefined((-1,0)), 0, max(0 - (0,0) / 4, min((-1,0) / 4, ((-1,0) + (-1,0)~ground - (0,0) - (0,0)~ground) / 5)))
         + if(isundefined((1,0)), 0, max(0 - (0,0) / 4, min((1,0) / 4, ((1,0) + (1,0)~ground - (0,0) - (0,0)~ground) / 5)))
         + if(isundefined((0,-1)), 0, max(0 - (0,0) / 4, min((0,-1) / 4, ((0,-1) + (0,-1)~ground - (0,0) - (0,0)~ground) / 5)))
         + if(isundefined((0,1)), 0, max(0 - (0,0) / 4, min((0,1) / 4, ((0,1) + (0,1)~ground - (0,0) - (0,0)~ground) / 5))) } { $rain := $rain - 0.5; } 100 { $rain > 0 }
% the same without rain
rule : { (0,0)
         + if(isundefined((-1,0)), 0, max(0 - (0,0) / 4, min((-1,0) / 4, ((-1,0) + (-1,0)~ground - (0,0) - (0,0)~ground) / 5)))
         + if(isundefined((1,0)), 0, max(0 - (0,0) / 4, min((1,0) / 4, ((1,0) + (1,0)~ground - (0,0) - (0,0)~ground) / 5)))
         + if(isundefined((0,-1)), 0, max(0 - (0,0) / 4, min((0,-1) / 4, ((0,-1) + (0,-1)~ground - (0,0) - (0,0)~ground) / 5)))
         + if(isundefined((0,1)), 0, max(0 - (0,0) / 4, min((0,1) / 4, ((0,1) + (0,1)~ground - (0,0) - (0,0)~ground) / 5))) } 100 { t }
