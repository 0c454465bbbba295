create db chang
join db 1/20
join db 2/20
join db 3/10
join db 4
start db
drain db 100
who db 4
leave db 2
start db
drain db 100
who db 4
terms db
