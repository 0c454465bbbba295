# A group elects its greatest member under Chang-Roberts: five messages and three announcements.
create a chang => ok
join a 3 => ok
join a 1 => ok
join a 2 => ok
start a => term 1
pending a => pending 3
drain a 100 => drained 8 left 0
who a 1 => leader 1 3
