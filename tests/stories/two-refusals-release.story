# Refusals of a release, two at a time: the lesser one is answered. Of 2025337 the version is in partial failure, and it
# has a number that is to be ported from CCCC; 2025338 is donated, was never assigned, and has a used number whose version
# is open; 2025336 is not donated, and has a number that is open.
after donated-block

let away port due=60 id=4 old=CCCC phase=initial since=37 subject=2025337003

AAAA,BBBB /downloads/acknowledge attempt=1 id=1
     200 first
AAAA,BBBB /downloads/acknowledge attempt=1 id=2
     200 second
NPAC /clock minute=22
     200 now=22
NPAC /blocks/assign assignment
     200 held
AAAA,BBBB /downloads/acknowledge attempt=1 id=3
     200 held
NPAC /clock minute=37
     200 now=37
AAAA /subscriptionVersionNewSP-Create create due=60 old=CCCC tn=2025337003
     200 away
BBBB /blocks/donate donation block=2025338 used=001
     200 block=2025338 ids=5
BBBB /subscriptionVersionOldSP-Create concur due=60 tn=2025336005
     200 port due=60 id=6 lrn=null phase=initial since=37 subject=2025336005

# the caller is unknown; and the code is not opened, the block is not donated or was never assigned, it is not its own,
# its version is not active, a number is open
ZZZZ /blocks/release block=2025347
     403 unknown_carrier 1
ZZZZ /blocks/release block=2025336
     403 unknown_carrier 1
ZZZZ /blocks/release block=2025338
     403 unknown_carrier 1
ZZZZ /blocks/release block=2025337
     403 unknown_carrier 1

# the code is not opened, so that the block is not donated either
AAAA,NPAC /blocks/release block=2025347
     404 unknown_code 3

# the block is not donated or was never assigned; and it is not the caller's, a number is open
AAAA,NPAC /blocks/release block=2025336
     404 not_found 10
AAAA,NPAC /blocks/release block=2025338
     404 not_found 10

# it is not the caller's; and its version is not active, a number is open
AAAA /blocks/release block=2025337
     403 not_yours 11

# its version is not active, and a number is open
CCCC,NPAC /blocks/release block=2025337
     409 wrong_status 13

# it is not the caller's, and a number is open
CCCC /downloads/acknowledge attempt=1 id=3
     200 held since=37 status=active
AAAA /blocks/release block=2025337
     403 not_yours 11

# each of them alone
NPAC /blocks/release block=2025335
     404 not_found 10
CCCC,NPAC /blocks/release block=2025337
     409 open_ports 23
AAAA /subscriptionVersionCancel id=4
     200 away phase=null status=canceled
BBBB /blocks/release block=2025337
     403 not_yours 11

# and nothing has changed
AAAA /versions/3
     200 held since=37 status=active
CCCC /blocks/release block=2025337
     200 held attempt=2 since=37
NPAC /blocks/release block=2025337
     409 wrong_status 13
