% A road with a crossing: a light with a button stops the cars before place 5.
[top]
components : cars@generator light@table road
in : button
link : button a@light
link : out@cars enter@road
link : out@light light@road

[cars]
period : 00:00:03:000
count : 4

[light]
% green until the button is pressed, then amber for a second and red for five; 0 closes the road and 1 opens it
states : green amber red
take : green a any amber
hold : amber 00:00:01:000 0 red
hold : red 00:00:05:000 1 green

[road]
type : cell
dim : (1,10)
delay : inertial
border : nowrapped
neighbors : road(0,-1) road(0,0) road(0,1)
initialvalue : 0
neighborports : open
portvalues : 1
in : enter light
link : enter car@road(0,0)
link : light lamp@road(0,5)
portintransition : car@road(0,0) arrive
portintransition : lamp@road(0,5) switch
localtransition : drive

[drive]
% a car comes in from the left, where the place is open
rule : 1 1000 { (0,0) = 0 and (0,-1) = 1 and (0,0)~open = 1 }
% a car goes on to the right, or off the road at its end
rule : 0 1000 { (0,0) = 1 and (isundefined((0,1)) or (0,1) = 0 and (0,1)~open = 1) }
rule : { (0,0) } 1000 { t }

[arrive]
% a car comes to the road where its first place is free; else it drives past, and what waits stays as it is
rule : 1 1000 { (0,0) = 0 }
rule : { ~open := (0,0)~open; } 0 { t }

[switch]
rule : { ~open := portvalue(thisport); } 0 { t }
