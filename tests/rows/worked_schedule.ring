# Chang-Roberts on 3 1 2, delivery by delivery. At the start 2 is in flight into 3, 3 into 1, 1 into 2.
create a chang => ok
join a 3 => ok
join a 1 => ok
join a 2 => ok
start a => term 1
pending a => pending 3

# Node 1 passes 3 on, behind its own identity.
deliver a 1 left => moved

# Node 2 drops 1, then passes 3 on, behind its own identity.
deliver a 2 left => moved
deliver a 2 left => moved

# Node 3 drops 2. Nobody knows a leader yet.
deliver a 3 left => moved
who a 3 => undecided 1
terms a => terms 1:-

# Node 3 takes its own identity: it is the leader, knows it, and announces it.
deliver a 3 left => moved
who a 3 => leader 1 3
who a 1 => undecided 1
terms a => terms 1:3
pending a => pending 1

# The announcement goes round the ring; node 3, who knows, drops it.
deliver a 1 left => moved
who a 1 => leader 1 3
deliver a 2 left => moved
deliver a 3 left => moved
deliver a 3 left => idle
pending a => pending 0
