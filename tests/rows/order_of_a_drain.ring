# A drain delivers at the least ready link each time: least receiver in the ring, left before right.
# Peterson on 3 1 2; at the start 2 is in flight into 3, 3 into 1, 1 into 2.
create a peterson => ok
join a 3 => ok
join a 1 => ok
join a 2 => ok
start a => term 1

# Node 3 takes 2.
drain a 1 => drained 1 left 3
# Node 1 takes 3, then 2, and stays active with value 3.
drain a 1 => drained 1 left 3
drain a 1 => drained 1 left 3
# Node 2 takes 1.
drain a 1 => drained 1 left 3
# Node 3 takes 1 and becomes a relay.
drain a 1 => drained 1 left 2
# Node 2 takes 3 and becomes a relay, then takes 3 and passes it on.
drain a 1 => drained 1 left 1
drain a 1 => drained 1 left 1
# Node 3 passes 3 on.
drain a 1 => drained 1 left 1
who a 1 => undecided 1
# Node 1 takes its own value: it is chosen, and names its identity.
drain a 1 => drained 1 left 2
who a 1 => leader 1 1
# Nodes 2 and 3 pass 3 on, and node 1 becomes a relay; it stays chosen.
drain a 1 => drained 1 left 2
drain a 1 => drained 1 left 2
drain a 1 => drained 1 left 1
who a 1 => leader 1 1
who a 2 => undecided 1
# The announcement goes round the ring.
drain a 1 => drained 1 left 1
who a 2 => leader 1 1
who a 3 => undecided 1
drain a 1 => drained 1 left 1
who a 3 => leader 1 1
drain a 1 => drained 1 left 0
drain a 1 => drained 0 left 0

# The same order by single deliveries: every lesser link is idle each time.
create b peterson => ok
join b 3 => ok
join b 1 => ok
join b 2 => ok
start b => term 1
deliver b 3 left => moved
deliver b 3 left => idle
deliver b 1 left => moved
deliver b 3 left => idle
deliver b 1 left => moved
deliver b 3 left => idle
deliver b 1 left => idle
deliver b 2 left => moved
deliver b 3 left => moved
deliver b 3 left => idle
deliver b 1 left => idle
deliver b 2 left => moved
deliver b 3 left => idle
deliver b 1 left => idle
deliver b 2 left => moved
deliver b 3 left => moved
deliver b 3 left => idle
deliver b 1 left => moved
who b 1 => leader 1 1
pending b => pending 2
deliver b 3 left => idle
deliver b 1 left => idle
deliver b 2 left => moved
deliver b 3 left => moved
deliver b 3 left => idle
deliver b 1 left => moved
deliver b 3 left => idle
deliver b 1 left => idle
deliver b 2 left => moved
who b 2 => leader 1 1
deliver b 3 left => moved
who b 3 => leader 1 1
deliver b 3 left => idle
deliver b 1 left => moved
pending b => pending 0
deliver b 2 left => idle

# Left comes before right: node 5 takes from its left first, then from its right, and so does node 9.
create c hirschberg => ok
join c 5 => ok
join c 9 => ok
start c => term 1
drain c 1 => drained 1 left 4
deliver c 5 left => idle
drain c 1 => drained 1 left 4
deliver c 5 right => idle
drain c 2 => drained 2 left 2
deliver c 9 left => idle
drain c 2 => drained 2 left 2
deliver c 9 right => idle
