% WireWorld: 0 is bare, 3 is wire, 1 the head of an electron and 2 its tail. Two wires with a diode each, turned to either side.
[top]
components : board

[board]
type : cell
dim : (9,11)
delay : transport
border : nowrapped
neighbors : board(-1,-1) board(-1,0) board(-1,1)
neighbors : board(0,-1) board(0,0) board(0,1)
neighbors : board(1,-1) board(1,0) board(1,1)
initialvalue : 0
initialrowvalue : 1 00003300000
initialrowvalue : 2 21333033333
initialrowvalue : 3 00003300000
initialrowvalue : 5 00000330000
initialrowvalue : 6 21333033333
initialrowvalue : 7 00000330000
localtransition : wire

[wire]
rule : 0 100 { (0,0) = 0 }
rule : 2 100 { (0,0) = 1 }
rule : 3 100 { (0,0) = 2 }
rule : 1 100 { truecount = 1 or truecount = 2 }
rule : 3 100 { t }
