% A surface of 5 times 5 places, with a heater at one of them and a cooler at another.
[top]
components : surface heater@generator cooler@generator
link : out@heater warm@surface
link : out@cooler cold@surface

[surface]
type : cell
dim : (5,5)
delay : transport
border : wrapped
neighbors : surface(0,0) surface(-1,0) surface(1,0) surface(0,-1) surface(0,1)
initialvalue : 20
statevariables : power
statevalues : 0
in : warm cold
link : warm power@surface(1,1)
link : cold power@surface(3,3)
portintransition : power@surface(1,1) switch
portintransition : power@surface(3,3) switch
localtransition : spread

[spread]
% halfway to the mean of the four around, in tenths of a degree, and the power of this place
rule : { round(5 * (0,0) + ((-1,0) + (1,0) + (0,-1) + (0,1)) * 1.25) / 10 + $power } 100 { t }

[switch]
rule : { (0,0) + portvalue(thisport) } { $power := portvalue(thisport); } 100 { t }

[heater]
% 8 at the start, and 0 half a second later
value : 8
step : -8
period : 00:00:00:500
count : 2

[cooler]
value : -8
step : 8
period : 00:00:00:500
count : 2
