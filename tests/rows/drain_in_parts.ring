# A drain of nothing makes no delivery; a drain stops at its count, and the next goes on from there.
create a chang => ok
join a 3 => ok
join a 1 => ok
join a 2 => ok
start a => term 1
drain a 0 => drained 0 left 3
drain a 3 => drained 3 left 1
drain a 100 => drained 5 left 0
drain a 100 => drained 0 left 0
drain a 0 => drained 0 left 0

# Between two drains some members know the leader and others don't.
create b peterson => ok
join b 3 => ok
join b 1 => ok
join b 2 => ok
start b => term 1
drain b 6 => drained 6 left 1
who b 1 => undecided 1
terms b => terms 1:-
drain b 3 => drained 3 left 2
who b 1 => leader 1 1
who b 2 => undecided 1
who b 3 => undecided 1
terms b => terms 1:1
drain b 100 => drained 6 left 0
who b 2 => leader 1 1
who b 3 => leader 1 1

# In parts or at once: fifteen deliveries in all.
start b => term 2
drain b 1000000000 => drained 15 left 0

# A drain of one group moves nothing in another.
start a => term 2
start b => term 3
drain a 100 => drained 8 left 0
pending b => pending 3
who b 1 => undecided 3
