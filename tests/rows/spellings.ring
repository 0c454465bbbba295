# Lines with the least and the greatest of what they may name, and replies that name as much.
create a lelann => ok
create abcdefghijklmn-0 chang => ok
create 9 hirschberg => ok
create - peterson => ok
groups => groups a abcdefghijklmn-0 9 -

# Members, of whom two weigh something.
members a => members
join a 3 => ok
join a 4294967295/10000 => ok
join a 1/9 => ok
members a => members 3 4294967295/10000 1/9
leave a 4294967295 => ok
join a 9/1 => ok
members a => members 3 1/9 9/1
join abcdefghijklmn-0 4294967295/65535 => ok
members abcdefghijklmn-0 => members 4294967295/65535

# Terms that were not run.
terms a => terms
start a => term 1
start a => term 2
terms a => terms 1:- 2:-
start a => term 3
who a 10 => no not-in-term
who a 1 => undecided 3
drain a 0 => drained 0 left 3
drain a 1000000000 => drained 12 left 0
who a 9 => leader 3 1/9
terms a => terms 1:- 2:- 3:1/9

# The greatest number and the greatest weight lead terms of two digits.
join - 4294967295 => ok
start - => term 1
start - => term 2
start - => term 3
start - => term 4
start - => term 5
start - => term 6
start - => term 7
start - => term 8
start - => term 9
start - => term 10
start - => term 11
start - => term 12
start - => term 13
start - => term 14
start - => term 15
start - => term 16
start - => term 17
start - => term 18
start - => term 19
start - => term 20
who - 4294967295 => undecided 20
drain - 100 => drained 3 left 0
who - 4294967295 => leader 20 4294967295
leave - 4294967295 => ok
join - 1/65535 => ok
start - => term 21
drain - 100 => drained 3 left 0
who - 1 => leader 21 1/65535

# Both sides of the member of the greatest number.
join 9 7 => ok
join 9 4294967295 => ok
start 9 => term 1
pending 9 => pending 4
deliver 9 4294967295 right => moved
deliver 9 4294967295 right => idle
cut 9 7 left => ok
cut 9 4294967295 right => ok
deliver 9 4294967295 right => idle
