# A new term may start at any time: the earlier one is closed as it stands, its packets are dropped.
create a chang => ok
join a 3 => ok
join a 1 => ok
join a 2 => ok
start a => term 1
start a => term 2
terms a => terms 1:- 2:-
pending a => pending 3
drain a 100 => drained 8 left 0
start a => term 3
who a 3 => undecided 3
terms a => terms 1:- 2:3 3:-

# A term that is closed after its leader was named keeps that leader.
create b chang => ok
join b 7 => ok
start b => term 1
drain b 1 => drained 1 left 1
start b => term 2
pending b => pending 1
terms b => terms 1:7 2:-
who b 7 => undecided 2

# A node that left and joined again stands last in joining order.
leave a 3 => ok
join a 3 => ok
members a => members 1 2 3
start a => term 4
drain a 100 => drained 8 left 0
who a 1 => leader 4 3
terms a => terms 1:- 2:3 3:- 4:3

# The same members in another order may choose another leader under Peterson.
create c peterson => ok
join c 3 => ok
join c 1 => ok
join c 2 => ok
start c => term 1
drain c 100 => drained 15 left 0
leave c 1 => ok
join c 1 => ok
members c => members 3 2 1
start c => term 2
drain c 100 => drained 15 left 0
who c 3 => leader 2 2
terms c => terms 1:1 2:2
