# One delivery moves the front packet of one link, or says that the link is empty.
create a chang => ok
join a 3 => ok
join a 1 => ok
join a 2 => ok
start a => term 1
deliver a 2 left => moved
who a 2 => undecided 1
deliver a 2 left => idle
pending a => pending 2

# A one-way algorithm sends nothing that arrives from the right.
deliver a 2 right => no one-way
pending a => pending 2

# Hirschberg-Sinclair has two links into each node.
create b hirschberg => ok
join b 3 => ok
join b 1 => ok
join b 2 => ok
start b => term 1
deliver b 3 left => moved
deliver b 3 left => idle
pending b => pending 5
deliver b 3 right => moved
deliver b 3 right => idle
pending b => pending 4

# A token that turns round comes back from the side to which it was sent.
deliver b 1 left => moved
deliver b 1 left => idle
pending b => pending 4
deliver b 3 right => moved
deliver b 3 right => idle
deliver b 3 left => idle
pending b => pending 3
drain b 100 => drained 22 left 0
who b 2 => leader 1 3

# In a ring of two the two links between the nodes are different.
create c hirschberg => ok
join c 5 => ok
join c 9 => ok
start c => term 1
pending c => pending 4
deliver c 5 left => moved
deliver c 5 left => idle
deliver c 5 right => moved
deliver c 5 right => idle
pending c => pending 4
deliver c 9 left => moved
deliver c 9 left => moved
deliver c 9 left => idle
pending c => pending 2
deliver c 9 right => moved
deliver c 9 right => moved
deliver c 9 right => idle
pending c => pending 2
drain c 100 => drained 6 left 0
who c 5 => leader 1 9
