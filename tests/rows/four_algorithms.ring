# LeLann on 3 1 2: every identity passes every link, nine messages and three announcements.
create lelann lelann => ok
join lelann 3 => ok
join lelann 1 => ok
join lelann 2 => ok
start lelann => term 1
pending lelann => pending 3
drain lelann 100 => drained 12 left 0
who lelann 3 => leader 1 3
who lelann 1 => leader 1 3
who lelann 2 => leader 1 3

# Chang-Roberts on 3 1 2: the smaller identities are stopped on their way.
create chang chang => ok
join chang 3 => ok
join chang 1 => ok
join chang 2 => ok
start chang => term 1
pending chang => pending 3
drain chang 100 => drained 8 left 0
who chang 3 => leader 1 3
who chang 1 => leader 1 3
who chang 2 => leader 1 3

# Chang-Roberts on a falling ring is at its dearest: six messages and three announcements.
create falling chang => ok
join falling 3 => ok
join falling 2 => ok
join falling 1 => ok
start falling => term 1
drain falling 100 => drained 9 left 0
who falling 2 => leader 1 3

# Hirschberg-Sinclair on 3 1 2 sends to both sides: phases of 9, 8 and 6 messages, then three announcements.
create hirschberg hirschberg => ok
join hirschberg 3 => ok
join hirschberg 1 => ok
join hirschberg 2 => ok
start hirschberg => term 1
pending hirschberg => pending 6
drain hirschberg 100 => drained 26 left 0
who hirschberg 3 => leader 1 3
who hirschberg 1 => leader 1 3
who hirschberg 2 => leader 1 3

# Hirschberg-Sinclair on a rising ring of four.
create rising hirschberg => ok
join rising 1 => ok
join rising 2 => ok
join rising 3 => ok
join rising 4 => ok
start rising => term 1
pending rising => pending 8
drain rising 100 => drained 32 left 0
who rising 1 => leader 1 4
who rising 4 => leader 1 4

# Hirschberg-Sinclair on a ring of two: both neighbours are the other node, over two links.
create two hirschberg => ok
join two 5 => ok
join two 9 => ok
start two => term 1
pending two => pending 4
drain two 100 => drained 12 left 0
who two 5 => leader 1 9
who two 9 => leader 1 9

# Peterson on 3 1 2: the chosen node names itself, and it isn't the greatest.
create peterson peterson => ok
join peterson 3 => ok
join peterson 1 => ok
join peterson 2 => ok
start peterson => term 1
pending peterson => pending 3
drain peterson 100 => drained 15 left 0
who peterson 3 => leader 1 1
who peterson 1 => leader 1 1
who peterson 2 => leader 1 1

# Peterson on 4 1 3 2: three phases of eight messages, and four announcements.
create phases peterson => ok
join phases 4 => ok
join phases 1 => ok
join phases 3 => ok
join phases 2 => ok
start phases => term 1
drain phases 100 => drained 28 left 0
who phases 4 => leader 1 2
who phases 1 => leader 1 2
who phases 3 => leader 1 2
who phases 2 => leader 1 2

# Peterson on a ring of two chooses the smaller identity.
create pair peterson => ok
join pair 5 => ok
join pair 9 => ok
start pair => term 1
drain pair 100 => drained 10 left 0
who pair 9 => leader 1 5
who pair 5 => leader 1 5

# Each group has its own term; the order of creation stays.
terms lelann => terms 1:3
terms hirschberg => terms 1:3
terms peterson => terms 1:1
terms phases => terms 1:2
groups => groups lelann chang falling hirschberg rising two peterson phases pair

# LeLann on a ring of two, and on one of four: each identity passes every link.
create many lelann => ok
join many 5 => ok
join many 9 => ok
start many => term 1
drain many 100 => drained 6 left 0
who many 5 => leader 1 9
create most lelann => ok
join most 4 => ok
join most 1 => ok
join most 3 => ok
join most 2 => ok
start most => term 1
drain most 100 => drained 20 left 0
who most 2 => leader 1 4

# Chang-Roberts on a rising ring of two: three messages and two announcements.
create few chang => ok
join few 1 => ok
join few 2 => ok
start few => term 1
drain few 100 => drained 5 left 0
who few 1 => leader 1 2
