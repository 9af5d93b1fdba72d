# A block is donated with at most a hundred numbers in use: those that are named, each counted once, and those in force.
after opening

let ported port id=201 subject=2025336000

# with 101 lines nothing is changed
BBBB /blocks/donate donation used=000..100
     409 contaminated 22
AAAA /versions/1
     404 not_found 10
AAAA /downloads/1
     200 downloads=[]
BBBB /blocks/donate donation used=001..100
     200 block=2025337 ids=1..100
AAAA /versions/100
     200 first id=100 subject=2025337100

# a hundred lines, and one of them twice
BBBB /blocks/donate donation block=2025338 used=001..100,050
     200 block=2025338 ids=101..200

# another number of the block is in force: with it a hundred lines are too many, ninety-nine are not
AAAA /subscriptionVersionNewSP-Create create tn=2025336000
     200 ported phase=initial
BBBB /subscriptionVersionOldSP-Create concur tn=2025336000
     200 ported
AAAA /subscriptionVersionActivate id=201
     200 ported attempt=1 status=sending
AAAA,BBBB /downloads/acknowledge attempt=1 id=201
     200 ported attempt=1 status=sending
CCCC /downloads/acknowledge attempt=1 id=201
     200 ported attempt=1 status=active
BBBB /blocks/donate donation block=2025336 used=001..100
     409 contaminated 22
BBBB /blocks/donate donation block=2025336 used=001..099
     200 block=2025336 ids=202..300
