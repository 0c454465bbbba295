# A link that is cut delivers nothing more in its term; what stands on it is stuck.
create a chang => ok
join a 3 => ok
join a 1 => ok
join a 2 => ok
start a => term 1
cut a 2 left => ok
cut a 2 left => ok
deliver a 2 left => idle
drain a 100 => drained 2 left 2
pending a => pending 2
who a 3 => undecided 1
cut a 1 right => no one-way
cut a 9 left => no not-in-term

# A later term has no cut link.
start a => term 2
drain a 100 => drained 8 left 0
who a 3 => leader 2 3

# Under Hirschberg-Sinclair one of a member's two links is cut: no token comes home from that side.
create b hirschberg => ok
join b 5 => ok
join b 9 => ok
start b => term 1
cut b 5 left => ok
drain b 100 => drained 4 left 1
who b 9 => undecided 1
cut b 5 right => ok

# Refusals in their order.
cut c 5 left => no no-group
cut c 5 right => no no-group
create c chang => ok
cut c 5 right => no no-term
join c 5 => ok
start c => term 1
cut c 6 right => no not-in-term
cut c 5 right => no one-way
cut c 5 left => ok
pending c => pending 1
drain c 0 => drained 0 left 1
drain c 9 => drained 0 left 1

# A cut says which link: a member of the running term, and a side.
cut c 5 => no bad-line
cut c 5 up => no bad-line
cut c 05 left => no bad-line
cut c 5 left left => no bad-line
