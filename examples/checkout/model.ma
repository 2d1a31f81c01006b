% A checkout: customers come, wait in a queue, are served one by one, and are counted.
[top]
components : customers@generator line@queue till@cpu served@counter
out : left total
link : out@customers in@line
link : out@line in@till
link : out@till done@line
link : out@till in@served
link : out@till left
link : out@served total

[customers]
% customers 1 to 6, one every two seconds
start : 00:00:01:000
period : 00:00:02:000
value : 1
step : 1
count : 6

[line]
% from the queue to the till it takes half a second
preparation : 00:00:00:500

[till]
delay : 00:00:03:000
