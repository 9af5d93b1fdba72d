# A newcomer begins its copy with the block and what stands of its numbers: the block comes before its numbers. What is
# sent while it comes waits for it too.
after held-block

let delete delete-of-block minute=24
let row-of-other row-of-first subject=2025336999

NPAC /carriers spid=DDDD
     200 rows=row-of-block,row-of-first,row-of-second spid=DDDD
DDDD /downloads/10
     200 downloads=[]
NPAC /clock minute=24
     200 now=24
CCCC /blocks/release block=2025337
     200 held attempt=2 since=24
NPAC /carriers spid=EEEE
     200 rows=row-of-block,row-of-first,row-of-second spid=EEEE
DDDD,EEEE /downloads/10
     200 downloads=delete
AAAA,BBBB,CCCC,DDDD /downloads/acknowledge attempt=2 id=3
     200 held attempt=2 since=24
NPAC /carriers spid=FFFF
     200 rows=row-of-block,row-of-first,row-of-second spid=FFFF
EEEE /downloads/acknowledge attempt=2 id=3
     200 held attempt=2 since=24
FFFF /downloads/acknowledge attempt=2 id=3
     200 held attempt=2 since=24 status=old
NPAC /carriers spid=GGGG
     200 rows=row-of-first,row-of-second spid=GGGG

# a block of a smaller number, one of whose numbers is in use, and one that is being assigned: a newcomer is told of the
# number, and the block waits for it
BBBB /blocks/donate donation block=2025336 used=999
     200 block=2025336 ids=4
AAAA,BBBB,CCCC,DDDD,EEEE,FFFF /downloads/acknowledge attempt=1 id=4
     200 first due=24 id=4 since=24 subject=2025336999
GGGG /downloads/acknowledge attempt=1 id=4
     200 first due=24 id=4 since=24 status=active subject=2025336999
NPAC /blocks/assign assignment
     200 held due=24 id=5 since=24
NPAC /carriers spid=HHHH
     200 rows=row-of-other,row-of-first,row-of-second spid=HHHH
HHHH /downloads/10
     200 {"downloads":[{"action":"create","attempt":1,"cic":null,"id":5,"lrn":"2025550000","minute":24,"subject":"2025337"}]}
HHHH /downloads/acknowledge attempt=1 id=5
     200 held due=24 id=5 since=24
