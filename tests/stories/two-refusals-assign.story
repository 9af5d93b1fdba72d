# Refusals of an assignment, two at a time: the lesser one is answered. 2025337 is held by CCCC and has a number that is
# to be ported from it, 2025338 is donated and has a used number whose version is open, 2025336 is not donated and has a
# number that is open.
after held-block

let open assignment block=2025338
let not-given assignment block=2025336
let closed assignment block=2025347

AAAA /subscriptionVersionNewSP-Create create due=60 old=CCCC tn=2025337003
     200 port due=60 id=4 old=CCCC phase=initial since=23 subject=2025337003
BBBB /blocks/donate donation block=2025338 used=001
     200 block=2025338 ids=5
BBBB /subscriptionVersionOldSP-Create concur due=60 tn=2025336005
     200 port due=60 id=6 lrn=null phase=initial since=23 subject=2025336005

# the holder is unknown; and the caller is another, the code is not opened, the routing number is not the holder's, the
# block is not donated, a number is open, the block is held
AAAA,ZZZZ /blocks/assign assignment holder=ZZZZ
     403 unknown_carrier 1
NPAC /blocks/assign closed holder=ZZZZ
     403 unknown_carrier 1
NPAC /blocks/assign open holder=ZZZZ
     403 unknown_carrier 1
NPAC /blocks/assign not-given holder=NPAC
     403 unknown_carrier 1
NPAC /blocks/assign assignment holder=ZZZZ
     403 unknown_carrier 1

# the caller is another; and the others
CCCC /blocks/assign closed
     403 not_admin 2
ZZZZ /blocks/assign open lrn=2025440000
     403 not_admin 2
BBBB /blocks/assign not-given
     403 not_admin 2
BBBB /blocks/assign open
     403 not_admin 2
CCCC /blocks/assign assignment
     403 not_admin 2

# the code is not opened; and the routing number is another's, the block is not donated
NPAC /blocks/assign closed lrn=2025440000
     404 unknown_code 3
NPAC /blocks/assign closed
     404 unknown_code 3

# the routing number is another's; and the block is not donated, a number is open, the block is held
NPAC /blocks/assign not-given lrn=2025440000
     409 bad_lrn 7
NPAC /blocks/assign open lrn=2025440000
     409 bad_lrn 7
NPAC /blocks/assign assignment lrn=2025330000
     409 bad_lrn 7

# the block is not donated, and a number is open
NPAC /blocks/assign not-given
     404 not_found 10

# a number is open, and the block is held
NPAC /blocks/assign assignment
     409 open_ports 23

# each of them alone
NPAC /blocks/assign open
     409 open_ports 23
AAAA /subscriptionVersionCancel id=4
     200 port due=60 id=4 old=CCCC since=23 status=canceled subject=2025337003
NPAC /blocks/assign assignment
     409 block_taken 24
NPAC /blocks/assign assignment block=2025335
     404 not_found 10

# and nothing has changed
AAAA /versions/3
     200 held since=23 status=active
AAAA /versions/7
     404 not_found 10
