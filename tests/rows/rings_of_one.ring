# LeLann: the own identity comes back, then the own announcement.
create lelann lelann => ok
join lelann 7 => ok
start lelann => term 1
pending lelann => pending 1
drain lelann 100 => drained 2 left 0
who lelann 7 => leader 1 7

# Chang-Roberts: the same.
create chang chang => ok
join chang 7 => ok
start chang => term 1
pending chang => pending 1
drain chang 100 => drained 2 left 0
who chang 7 => leader 1 7

# Hirschberg-Sinclair: the own token comes back over both links.
create hirschberg hirschberg => ok
join hirschberg 7 => ok
start hirschberg => term 1
pending hirschberg => pending 2
drain hirschberg 100 => drained 3 left 0
who hirschberg 7 => leader 1 7

# Peterson: the own value comes back twice.
create peterson peterson => ok
join peterson 7 => ok
start peterson => term 1
pending peterson => pending 1
drain peterson 100 => drained 3 left 0
who peterson 7 => leader 1 7

# Link by link: what is sent to the right arrives from the left, and the reverse.
start hirschberg => term 2
who hirschberg 7 => undecided 2
deliver hirschberg 7 right => moved
who hirschberg 7 => leader 2 7
deliver hirschberg 7 right => idle
pending hirschberg => pending 2
deliver hirschberg 7 left => moved
deliver hirschberg 7 left => moved
deliver hirschberg 7 left => idle
pending hirschberg => pending 0

# In a ring of one the announcement is dropped by the node that sent it.
start chang => term 2
deliver chang 7 left => moved
who chang 7 => leader 2 7
pending chang => pending 1
deliver chang 7 left => moved
pending chang => pending 0
deliver chang 7 left => idle
deliver chang 7 right => no one-way
