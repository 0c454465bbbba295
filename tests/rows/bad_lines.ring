# What is no line of the grammar changes nothing and is answered like this.
create a chang => ok
=> no bad-line
help => no bad-line
Create b chang => no bad-line
GROUPS => no bad-line

# Identities go from 1 to 4294967295, in one spelling.
join a 0 => no bad-line
join a 4294967296 => no bad-line
join a 07 => no bad-line
join a 00 => no bad-line
join a +7 => no bad-line
join a -7 => no bad-line
join a 7.0 => no bad-line
join a 0x7 => no bad-line
join a 1e3 => no bad-line
join a seven => no bad-line
join a 10000000000 => no bad-line
join a \xc3\xa4 => no bad-line
join a \xff => no bad-line
join a 18446744073709551617 => no bad-line
join a 340282366920938463463374607431768211457 => no bad-line
join a 4294967295 => ok
join a 1 => ok
members a => members 4294967295 1

# A line ends with LF alone, and its words stand one space apart.
join a 3\r => no bad-line
\r => no bad-line
groups\r => no bad-line
join a\t3 => no bad-line
join  a 3 => no bad-line
join a  3 => no bad-line
join a 3\x20 => no bad-line
\x20join a 3 => no bad-line
Join a 3 => no bad-line
JOIN a 3 => no bad-line
\x20 => no bad-line
groups\x20 => no bad-line
\x20groups => no bad-line

# Too few words, and too many.
create => no bad-line
create b => no bad-line
create chang => no bad-line
create b chang chang => no bad-line
join => no bad-line
join a => no bad-line
join a 3 4 => no bad-line
leave a => no bad-line
start => no bad-line
start a a => no bad-line
who a => no bad-line
who a 1 1 => no bad-line
members => no bad-line
members a a => no bad-line
terms => no bad-line
groups a => no bad-line
deliver a 1 => no bad-line
deliver a left => no bad-line
deliver a 1 left left => no bad-line
pending => no bad-line
drain a => no bad-line
drain a 1 1 => no bad-line

# Names of groups have 1 to 16 bytes of a to z, 0 to 9 and hyphen.
create A chang => no bad-line
join A 7 => no bad-line
join \xc3\xa4 7 => no bad-line
join abcdefghijklmnopq 7 => no bad-line
create a_b chang => no bad-line
create a.b chang => no bad-line
create abcdefghijklmnopq chang => no bad-line
create  chang => no bad-line
create \xc3\xa4 chang => no bad-line
create a\x00b chang => no bad-line
create abcdefghijklmnop chang => ok
create - chang => ok
create 0 chang => ok
create a-1 chang => ok

# Algorithms and sides have one word each.
create b bully => no bad-line
create b Chang => no bad-line
create b chang-roberts => no bad-line
create b chan => no bad-line
create b changs => no bad-line
create b petersen => no bad-line
deliver a 1 up => no bad-line
deliver a 1 Left => no bad-line
deliver a 1 l => no bad-line
deliver a 1 both => no bad-line
cut a 1 => no bad-line
cut a 1 both => no bad-line

# The count of a drain goes from 0 to 1000000000.
drain a 1000000001 => no bad-line
drain a 00 => no bad-line
drain a 01 => no bad-line
drain a -1 => no bad-line
drain a +1 => no bad-line
drain a all => no bad-line
drain a 0 => no no-term
drain a 1000000000 => no no-term

# A bad line is refused before the group is looked for.
join nobody 0 => no bad-line
drain nobody x => no bad-line
join nobody 1 => no no-group

# Bytes that are no text.
\xff\xfe => no bad-line
gr\x00ups => no bad-line
\x5c => no bad-line

# Nothing of all this changed anything.
groups => groups a abcdefghijklmnop - 0 a-1
members a => members 4294967295 1
