# A weight counts before a number: 1 of weight 9 leads, and not the greater numbers.
create a chang => ok
join a 3 => ok
join a 1/9 => ok
join a 2 => ok
start a => term 1
drain a 100 => drained 8 left 0
who a 3 => leader 1 1/9
terms a => terms 1:1/9

# Members are told apart by their numbers alone.
join a 1/3 => no member
join a 1 => no member

# A weight goes from 1 to 65535, in one spelling, and 0 isn't written.
join a 5/0 => no bad-line
join a 5/ => no bad-line
join a 5/07 => no bad-line
join a 5/+7 => no bad-line
join a 5/-7 => no bad-line
join a 5/65536 => no bad-line
join a 5/4294967296 => no bad-line
join a 5/4294967297 => no bad-line
join a 5/7/7 => no bad-line
join a 5/7/ => no bad-line
join a 5//7 => no bad-line
join a /7 => no bad-line
join a / => no bad-line
join a 0/7 => no bad-line
join a 05/7 => no bad-line
join a 4294967296/7 => no bad-line
join a 5 /7 => no bad-line
join a 5/ 7 => no bad-line
join a/9 5 => no bad-line

# A node that is there already is called by its number.
who a 1/9 => no bad-line
leave a 1/9 => no bad-line
deliver a 1/9 left => no bad-line
drain a 5/7 => no bad-line
who a 1 => leader 1 1/9

# The greatest weight, and a member that comes back with another one.
join a 5/65535 => ok
leave a 1 => ok
members a => members 3 2 5/65535
join a 1/65535 => ok
members a => members 3 2 5/65535 1/65535
start a => term 2
drain a 100 => drained 14 left 0
who a 1 => leader 2 5/65535
terms a => terms 1:1/9 2:5/65535

# LeLann and Hirschberg-Sinclair name the one of the greatest weight as well.
create lelann lelann => ok
join lelann 3 => ok
join lelann 1/9 => ok
join lelann 2 => ok
start lelann => term 1
drain lelann 100 => drained 12 left 0
who lelann 2 => leader 1 1/9
create hirschberg hirschberg => ok
join hirschberg 3 => ok
join hirschberg 1/9 => ok
join hirschberg 2 => ok
start hirschberg => term 1
drain hirschberg 100 => drained 26 left 0
who hirschberg 3 => leader 1 1/9

# Peterson compares by weight too, and may choose another.
create peterson peterson => ok
join peterson 3 => ok
join peterson 1/9 => ok
join peterson 2 => ok
start peterson => term 1
drain peterson 100 => drained 15 left 0
who peterson 3 => leader 1 2

# Of equal weights the greater number leads.
create equal chang => ok
join equal 4294967295 => ok
join equal 7/2 => ok
join equal 8/2 => ok
join equal 9/1 => ok
start equal => term 1
drain equal 100 => drained 12 left 0
who equal 9 => leader 1 8/2
