create a chang
join a 3
join a 1
join a 2
start a
pending a
drain a 100
who a 1
