# A block's version waits in the queues as any other, under its seven digits: by minute, by id, and in order with the
# block's earlier downloads alone.
after donated-block

let delete delete-of-block minute=22
let again create-of-block id=4 lrn=2025440000 minute=38
let next held due=38 id=4 lrn=2025440000 new=AAAA since=38

AAAA,BBBB /downloads/10
     200 downloads=create-of-first,create-of-second
AAAA /downloads/acknowledge attempt=1 id=2
     200 second
AAAA /downloads/acknowledge attempt=1 id=1
     200 first
NPAC /clock minute=22
     200 now=22
NPAC /blocks/assign assignment
     200 held
AAAA /downloads/100
     200 downloads=create-of-block
BBBB,CCCC /downloads/100
     200 downloads=create-of-first,create-of-second,create-of-block
BBBB /downloads/2
     200 downloads=create-of-first,create-of-second
# it may be acknowledged before the downloads of its numbers
AAAA,BBBB /downloads/acknowledge attempt=1 id=3
     200 held
CCCC /downloads/acknowledge attempt=2 id=3
     404 not_queued 25
CCCC /downloads/acknowledge attempt=1 id=3
     200 held status=active
CCCC /downloads/acknowledge attempt=1 id=3
     404 not_queued 25
BBBB /downloads/acknowledge attempt=1 id=1
     200 first since=15 status=partial-failure
# it is given back and assigned anew, and nothing of the delete is known to CCCC: its downloads of the block come in order
CCCC /blocks/release block=2025337
     200 held attempt=2
AAAA,BBBB /downloads/acknowledge attempt=2 id=3
     200 held attempt=2
NPAC /clock minute=38
     200 now=38
NPAC /blocks/assign assignment holder=AAAA lrn=2025440000
     200 next
CCCC /downloads/10
     200 downloads=create-of-first,create-of-second,delete,again
CCCC /downloads/acknowledge attempt=1 id=4
     409 out_of_order 26
CCCC /downloads/acknowledge attempt=2 id=3
     200 held attempt=2 since=37 status=old
CCCC /downloads/acknowledge attempt=1 id=4
     200 next
CCCC /downloads/acknowledge attempt=1 id=2
     200 second since=15 status=partial-failure
CCCC /downloads/10
     200 downloads=create-of-first
