# A donation, an assignment and a release find each number of the block as it stands in that minute, however many minutes
# the clock has jumped over.
after opening

let lone port due=300 lrn=null subject=2025337005
let used first due=120 id=2 since=120
let block held due=135 id=4 since=135
let away port due=300 id=5 lrn=null new=AAAA old=CCCC since=135 subject=2025337003

# a port that the old provider alone has stated ends at 120
BBBB /subscriptionVersionOldSP-Create concur due=300 tn=2025337005
     200 lone phase=initial
NPAC /clock minute=119
     200 now=119
BBBB /blocks/donate donation
     409 open_ports 23
NPAC /clock minute=120
     200 now=120
BBBB /blocks/donate donation
     200 block=2025337 ids=2,3
AAAA /versions/1
     200 lone since=120 status=canceled

# the versions of the used numbers are in force at 135, since AAAA has acknowledged them
AAAA /downloads/acknowledge attempt=1 id=2
     200 used
AAAA /downloads/acknowledge attempt=1 id=3
     200 used id=3 subject=2025337002
NPAC /clock minute=134
     200 now=134
NPAC /blocks/assign assignment
     409 open_ports 23
NPAC /clock minute=135
     200 now=135
NPAC /blocks/assign assignment
     200 block
AAAA,BBBB /downloads/acknowledge attempt=1 id=4
     200 block
CCCC /downloads/acknowledge attempt=1 id=4
     200 block status=active

# a port from the holder that the holder alone has stated ends at 255
CCCC /subscriptionVersionOldSP-Create concur due=300 old=CCCC tn=2025337003
     200 away phase=initial
NPAC /clock minute=254
     200 now=254
CCCC /blocks/release block=2025337
     409 open_ports 23
NPAC /clock minute=900
     200 now=900
CCCC /blocks/release block=2025337
     200 block attempt=2 since=900
AAAA /versions/5
     200 away since=255 status=canceled
AAAA /versions/2
     200 used since=135 status=partial-failure
