# No group has this name.
who a 1 => no no-group
join a 1 => no no-group
leave a 1 => no no-group
start a => no no-group
members a => no no-group
terms a => no no-group
deliver a 1 left => no no-group
pending a => no no-group
drain a 1 => no no-group
groups => groups

# A name stands once, whatever the algorithm.
create a chang => ok
create a peterson => no exists
create a chang => no exists
groups => groups a

# An empty group has no ring, and no term.
start a => no empty
members a => members
terms a => terms

# A node is a member once, and only a member leaves.
join a 7 => ok
join a 7 => no member
leave a 8 => no not-member
members a => members 7

# Without a term it doesn't matter who is asked.
who a 7 => no no-term
who a 8 => no no-term
deliver a 7 left => no no-term
deliver a 7 right => no no-term
pending a => no no-term
drain a 0 => no no-term

# Whether a node is in the term comes before the side on which nothing arrives.
start a => term 1
join a 8 => ok
who a 8 => no not-in-term
who a 9 => no not-in-term
deliver a 8 left => no not-in-term
deliver a 8 right => no not-in-term
deliver a 7 right => no one-way

# No refusal changed anything.
members a => members 7 8
terms a => terms 1:-
pending a => pending 1
drain a 9 => drained 2 left 0
leave a 7 => ok
leave a 7 => no not-member
who a 7 => leader 1 7
groups => groups a
