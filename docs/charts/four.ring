# Each of the four algorithms on the ring 3, 7, 2, 5, each run to its end; and one that is left in the middle.

create lelann lelann => ok
join lelann 3 => ok
join lelann 7 => ok
join lelann 2 => ok
join lelann 5 => ok
start lelann => term 1
drain lelann 1000 => drained 20 left 0
who lelann 5 => leader 1 7

create chang chang => ok
join chang 3 => ok
join chang 7 => ok
join chang 2 => ok
join chang 5 => ok
start chang => term 1
drain chang 1000 => drained 12 left 0
who chang 5 => leader 1 7

create hirschberg hirschberg => ok
join hirschberg 3 => ok
join hirschberg 7 => ok
join hirschberg 2 => ok
join hirschberg 5 => ok
start hirschberg => term 1
drain hirschberg 1000 => drained 36 left 0
who hirschberg 5 => leader 1 7

create peterson peterson => ok
join peterson 3 => ok
join peterson 7 => ok
join peterson 2 => ok
join peterson 5 => ok
start peterson => term 1
drain peterson 1000 => drained 28 left 0
who peterson 5 => leader 1 3

# 7 has come back to 7, which knows; the others don't yet.
create stopped hirschberg => ok
join stopped 3 => ok
join stopped 7 => ok
join stopped 2 => ok
join stopped 5 => ok
start stopped => term 1
drain stopped 29 => drained 29 left 2
