# A number goes through its statuses, and its block is to be donated in each of them: while it is open it refuses the
# donation, and while it is in force it counts as in use beside a hundred lines that are named.
after opening

let walk port due=100 subject=2025337005

# pending
AAAA /subscriptionVersionNewSP-Create create due=100 tn=2025337005
     200 walk phase=initial
BBBB /blocks/donate donation used=[]
     409 open_ports 23
BBBB /subscriptionVersionOldSP-Create concur due=100 tn=2025337005
     200 walk
BBBB /blocks/donate donation used=005
     409 open_ports 23

# conflict
BBBB /subscriptionVersionConflict id=1
     200 walk status=conflict
BBBB /blocks/donate donation used=[]
     409 open_ports 23
BBBB /subscriptionVersionRemoveFromConflict id=1
     200 walk

# cancel-pending
BBBB /subscriptionVersionCancel id=1
     200 walk phase=initial status=cancel-pending
BBBB /blocks/donate donation used=[]
     409 open_ports 23
NPAC /clock minute=120
     200 now=120
BBBB /blocks/donate donation used=[]
     409 open_ports 23
BBBB /subscriptionVersionRemoveFromConflict id=1
     200 walk since=120

# sending a create, and failed
AAAA /subscriptionVersionActivate id=1
     200 walk attempt=1 since=120 status=sending
BBBB /blocks/donate donation used=[]
     409 open_ports 23
NPAC /clock minute=135
     200 now=135
BBBB /blocks/donate donation used=[]
     409 open_ports 23
AAAA /subscriptionVersionActivate id=1
     200 walk attempt=2 since=135 status=sending
AAAA /downloads/acknowledge attempt=2 id=1
     200 walk attempt=2 since=135 status=sending

# in partial failure, and active
NPAC /clock minute=150
     200 now=150
BBBB /blocks/donate donation used=100..199
     409 contaminated 22
BBBB /downloads/acknowledge attempt=2 id=1
     200 walk attempt=2 since=150 status=partial-failure
CCCC /downloads/acknowledge attempt=2 id=1
     200 walk attempt=2 since=150 status=active
BBBB /blocks/donate donation used=100..199
     409 contaminated 22

# disconnect-pending, and sending a delete
AAAA /subscriptionVersionDisconnect id=1 release=200
     200 walk attempt=2 release=200 since=150 status=disconnect-pending
BBBB /blocks/donate donation used=100..199
     409 contaminated 22
NPAC /clock minute=200
     200 now=200
BBBB /blocks/donate donation used=100..199
     409 contaminated 22
AAAA,BBBB /downloads/acknowledge attempt=3 id=1
     200 walk attempt=3 since=200 status=sending
CCCC /downloads/acknowledge attempt=3 id=1
     200 walk attempt=3 since=200 status=old

# old
BBBB /blocks/donate donation used=100..199
     200 block=2025337 ids=2..101
