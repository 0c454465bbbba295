# Noise between the lines of a run. Each line of it is answered by one refusal, and changes nothing:
# the lines of the run are answered as if it were not there.
create a chang => ok

# A space before the first word.
\x20create b chang => no bad-line
\x20join a 9 => no bad-line
\x20leave a 3 => no bad-line
\x20start a => no bad-line
\x20who a 3 => no bad-line
\x20members a => no bad-line
\x20terms a => no bad-line
\x20groups => no bad-line
\x20deliver a 3 left => no bad-line
\x20pending a => no bad-line
\x20drain a 100 => no bad-line

# The run goes on.
join a 3 => ok

# A space behind the last word.
create b chang\x20 => no bad-line
join a 9\x20 => no bad-line
leave a 3\x20 => no bad-line
start a\x20 => no bad-line
who a 3\x20 => no bad-line
members a\x20 => no bad-line
terms a\x20 => no bad-line
groups\x20 => no bad-line
deliver a 3 left\x20 => no bad-line
pending a\x20 => no bad-line
drain a 100\x20 => no bad-line

# The run goes on.
join a 1 => ok

# Two spaces between two words, the first of all and the last of all.
create  b chang => no bad-line
join  a 9 => no bad-line
leave  a 3 => no bad-line
start  a => no bad-line
who  a 3 => no bad-line
members  a => no bad-line
terms  a => no bad-line
deliver  a 3 left => no bad-line
pending  a => no bad-line
drain  a 100 => no bad-line
create b  chang => no bad-line
join a  9 => no bad-line
leave a  3 => no bad-line
who a  3 => no bad-line
deliver a 3  left => no bad-line
drain a  100 => no bad-line

# The run goes on.
join a 2 => ok

# A tab for a space.
create\tb chang => no bad-line
join\ta 9 => no bad-line
leave\ta 3 => no bad-line
start\ta => no bad-line
who\ta 3 => no bad-line
members\ta => no bad-line
terms\ta => no bad-line
deliver\ta 3 left => no bad-line
pending\ta => no bad-line
drain\ta 100 => no bad-line

# The run goes on.
start a => term 1

# A carriage return at the end, and at the front.
create b chang\r => no bad-line
join a 9\r => no bad-line
leave a 3\r => no bad-line
start a\r => no bad-line
who a 3\r => no bad-line
members a\r => no bad-line
terms a\r => no bad-line
groups\r => no bad-line
deliver a 3 left\r => no bad-line
pending a\r => no bad-line
drain a 100\r => no bad-line
\rcreate b chang => no bad-line
\rjoin a 9 => no bad-line
\rleave a 3 => no bad-line
\rstart a => no bad-line
\rwho a 3 => no bad-line
\rmembers a => no bad-line
\rterms a => no bad-line
\rgroups => no bad-line
\rdeliver a 3 left => no bad-line
\rpending a => no bad-line
\rdrain a 100 => no bad-line

# The run goes on.
pending a => pending 3

# A first letter that is a capital.
Create b chang => no bad-line
Join a 9 => no bad-line
Leave a 3 => no bad-line
Start a => no bad-line
Who a 3 => no bad-line
Members a => no bad-line
Terms a => no bad-line
Groups => no bad-line
Deliver a 3 left => no bad-line
Pending a => no bad-line
Drain a 100 => no bad-line

# The run goes on.
deliver a 1 left => moved

# Capitals alone.
CREATE B CHANG => no bad-line
JOIN A 9 => no bad-line
LEAVE A 3 => no bad-line
START A => no bad-line
WHO A 3 => no bad-line
MEMBERS A => no bad-line
TERMS A => no bad-line
GROUPS => no bad-line
DELIVER A 3 LEFT => no bad-line
PENDING A => no bad-line
DRAIN A 100 => no bad-line

# The run goes on.
drain a 3 => drained 3 left 1

# A byte above 127 behind the last word, and before the first.
create b chang\xff => no bad-line
join a 9\xff => no bad-line
leave a 3\xff => no bad-line
start a\xff => no bad-line
who a 3\xff => no bad-line
members a\xff => no bad-line
terms a\xff => no bad-line
groups\xff => no bad-line
deliver a 3 left\xff => no bad-line
pending a\xff => no bad-line
drain a 100\xff => no bad-line
\x80create b chang => no bad-line
\x80join a 9 => no bad-line
\x80leave a 3 => no bad-line
\x80start a => no bad-line
\x80who a 3 => no bad-line
\x80members a => no bad-line
\x80terms a => no bad-line
\x80groups => no bad-line
\x80deliver a 3 left => no bad-line
\x80pending a => no bad-line
\x80drain a 100 => no bad-line

# The run goes on.
who a 1 => undecided 1

# A letter that is one in other alphabets alone, in place of the group.
join \xc3\xa4 9 => no bad-line
leave \xc3\xa4 3 => no bad-line
start \xc3\xa4 => no bad-line
who \xc3\xa4 3 => no bad-line
members \xc3\xa4 => no bad-line
terms \xc3\xa4 => no bad-line
deliver \xc3\xa4 3 left => no bad-line
pending \xc3\xa4 => no bad-line
drain \xc3\xa4 100 => no bad-line

# The run goes on.
terms a => terms 1:-

# A byte 0 behind the last word.
create b chang\x00 => no bad-line
join a 9\x00 => no bad-line
leave a 3\x00 => no bad-line
start a\x00 => no bad-line
who a 3\x00 => no bad-line
members a\x00 => no bad-line
terms a\x00 => no bad-line
groups\x00 => no bad-line
deliver a 3 left\x00 => no bad-line
pending a\x00 => no bad-line
drain a 100\x00 => no bad-line

# The run goes on.
drain a 100 => drained 4 left 0

# The byte behind the last ASCII letter in use, and a quotation mark.
create b chang\x7f => no bad-line
join a 9\x7f => no bad-line
leave a 3\x7f => no bad-line
start a\x7f => no bad-line
"create b chang" => no bad-line
"join a 9" => no bad-line
"leave a 3" => no bad-line
"start a" => no bad-line

# The run goes on.
who a 1 => leader 1 3

# One word too many.
create b chang a => no bad-line
join a 9 a => no bad-line
leave a 3 a => no bad-line
start a a => no bad-line
who a 3 a => no bad-line
members a a => no bad-line
terms a a => no bad-line
groups a => no bad-line
deliver a 3 left a => no bad-line
pending a a => no bad-line
drain a 100 a => no bad-line
create b chang 1 => no bad-line
join a 9 1 => no bad-line
leave a 3 1 => no bad-line
start a 1 => no bad-line
who a 3 1 => no bad-line
members a 1 => no bad-line
terms a 1 => no bad-line
groups 1 => no bad-line
deliver a 3 left 1 => no bad-line
pending a 1 => no bad-line
drain a 100 1 => no bad-line

# The run goes on.
leave a 1 => ok

# One word too few.
create b => no bad-line
join a => no bad-line
leave a => no bad-line
start => no bad-line
who a => no bad-line
members => no bad-line
terms => no bad-line
deliver a 3 => no bad-line
pending => no bad-line
drain a => no bad-line

# The run goes on.
members a => members 3 2

# 129 bytes: spaces behind the last word.
create b chang\( *115) => no bad-line
join a 9\( *121) => no bad-line
leave a 3\( *120) => no bad-line
start a\( *122) => no bad-line
who a 3\( *122) => no bad-line
members a\( *120) => no bad-line
terms a\( *122) => no bad-line
groups\( *123) => no bad-line
deliver a 3 left\( *113) => no bad-line
pending a\( *120) => no bad-line
drain a 100\( *118) => no bad-line

# The run goes on.
terms a => terms 1:3

# 129 bytes and many more, of which the last spell an event.
\(x*129) => no bad-line
\(x*121)groups a => no bad-line
\(x*100000) => no bad-line
\(x*99984)create b chang => no bad-line
groups\( *100000) => no bad-line
\xff\(x*100000) => no bad-line

# The run goes on.
groups => groups a

# Numbers that no member has.
join a 0 => no bad-line
join a 00 => no bad-line
join a 03 => no bad-line
join a +3 => no bad-line
join a -3 => no bad-line
join a 3. => no bad-line
join a 3.0 => no bad-line
join a 0x3 => no bad-line
join a 3e0 => no bad-line
join a 3_0 => no bad-line
join a 3a => no bad-line
join a three => no bad-line
join a - => no bad-line
join a 4294967296 => no bad-line
join a 18446744073709551619 => no bad-line
join a 99999999999999999999999999999999999999999 => no bad-line
leave a 0 => no bad-line
leave a 00 => no bad-line
leave a 03 => no bad-line
leave a +3 => no bad-line
leave a -3 => no bad-line
leave a 3. => no bad-line
leave a 3.0 => no bad-line
leave a 0x3 => no bad-line
leave a 3e0 => no bad-line
leave a 3_0 => no bad-line
leave a 3a => no bad-line
leave a three => no bad-line
leave a - => no bad-line
leave a 4294967296 => no bad-line
leave a 18446744073709551619 => no bad-line
leave a 99999999999999999999999999999999999999999 => no bad-line
who a 0 => no bad-line
who a 00 => no bad-line
who a 03 => no bad-line
who a +3 => no bad-line
who a -3 => no bad-line
who a 3. => no bad-line
who a 3.0 => no bad-line
who a 0x3 => no bad-line
who a 3e0 => no bad-line
who a 3_0 => no bad-line
who a 3a => no bad-line
who a three => no bad-line
who a - => no bad-line
who a 4294967296 => no bad-line
who a 18446744073709551619 => no bad-line
who a 99999999999999999999999999999999999999999 => no bad-line
deliver a 0 left => no bad-line
deliver a 00 left => no bad-line
deliver a 03 left => no bad-line
deliver a +3 left => no bad-line
deliver a -3 left => no bad-line
deliver a 3. left => no bad-line
deliver a 3.0 left => no bad-line
deliver a 0x3 left => no bad-line
deliver a 3e0 left => no bad-line
deliver a 3_0 left => no bad-line
deliver a 3a left => no bad-line
deliver a three left => no bad-line
deliver a - left => no bad-line
deliver a 4294967296 left => no bad-line
deliver a 18446744073709551619 left => no bad-line
deliver a 99999999999999999999999999999999999999999 left => no bad-line

# The run goes on.
deliver a 1 left => idle

# Counts that no drain has.
drain a 00 => no bad-line
drain a 01 => no bad-line
drain a 0100 => no bad-line
drain a +1 => no bad-line
drain a -1 => no bad-line
drain a -0 => no bad-line
drain a 1. => no bad-line
drain a 1e2 => no bad-line
drain a 0x1 => no bad-line
drain a 1a => no bad-line
drain a all => no bad-line
drain a 1000000001 => no bad-line
drain a 4294967396 => no bad-line
drain a 18446744073709551716 => no bad-line

# The run goes on.
pending a => pending 0

# Names that no group has.
create A chang => no bad-line
create b_ chang => no bad-line
create b. chang => no bad-line
create b/ chang => no bad-line
create b: chang => no bad-line
create b,c chang => no bad-line
create b' chang => no bad-line
create abcdefghijklmnopq chang => no bad-line
create b\x00 chang => no bad-line
create b\xe2\x80\x90 chang => no bad-line
start A => no bad-line
start a_ => no bad-line
start * => no bad-line
start abcdefghijklmnopq => no bad-line

# The run goes on.
start a => term 2

# Kinds that there are not.
create b Chang => no bad-line
create b chan => no bad-line
create b changs => no bad-line
create b chang-roberts => no bad-line
create b lelan => no bad-line
create b LeLann => no bad-line
create b hirschberg-sinclair => no bad-line
create b hs => no bad-line
create b petersen => no bad-line
create b any => no bad-line
create b 0 => no bad-line

# The run goes on.
drain a 100 => drained 5 left 0

# Sides that there are not.
deliver a 3 Left => no bad-line
deliver a 3 lef => no bad-line
deliver a 3 lefts => no bad-line
deliver a 3 l => no bad-line
deliver a 3 up => no bad-line
deliver a 3 both => no bad-line
deliver a 3 0 => no bad-line
deliver a 3 left-right => no bad-line
deliver a 3 from => no bad-line

# The run goes on.
who a 2 => leader 2 3

# Words that are no command.
=> no bad-line
help => no bad-line
quit => no bad-line
exit => no bad-line
create => no bad-line
creat b chang => no bad-line
creates b chang => no bad-line
joins a 9 => no bad-line
jion a 9 => no bad-line
leaves a 3 => no bad-line
begin a => no bad-line
starts a => no bad-line
whois a 3 => no bad-line
member a => no bad-line
member a 3 => no bad-line
term a => no bad-line
term 1 => no bad-line
group => no bad-line
groups? => no bad-line
delivers a 3 left => no bad-line
deliver a left => no bad-line
deliver a 3 => no bad-line
pend a => no bad-line
drained a 100 => no bad-line
no bad-line => no bad-line
ok => no bad-line
leader 1 3 => no bad-line
; groups => no bad-line
groups; => no bad-line
groups groups => no bad-line
= => no bad-line
=>= => no bad-line
[] => no bad-line
{} => no bad-line

# The run goes on.
terms a => terms 1:3 2:3
