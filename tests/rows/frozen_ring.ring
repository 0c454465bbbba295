# A member that leaves while a term runs stays in that term's ring, and may become its leader.
create a chang => ok
join a 3 => ok
join a 1 => ok
join a 2 => ok
start a => term 1
leave a 3 => ok
drain a 100 => drained 8 left 0
who a 3 => leader 1 3
members a => members 1 2

# The next term's ring is without it.
start a => term 2
who a 3 => no not-in-term
drain a 100 => drained 5 left 0
who a 2 => leader 2 2
terms a => terms 1:3 2:2

# A member that joins while a term runs is in the next term's ring alone.
start a => term 3
join a 9 => ok
who a 9 => no not-in-term
deliver a 9 left => no not-in-term
drain a 100 => drained 5 left 0
who a 9 => no not-in-term
who a 1 => leader 3 2
start a => term 4
who a 9 => undecided 4
drain a 100 => drained 8 left 0
who a 9 => leader 4 9

# All members may leave while a term runs; it goes on, and no other can be started.
start a => term 5
leave a 1 => ok
leave a 2 => ok
leave a 9 => ok
members a => members
start a => no empty
pending a => pending 3
drain a 100 => drained 8 left 0
who a 1 => leader 5 9
terms a => terms 1:3 2:2 3:2 4:9 5:9
