# Refusals of a modify, two at a time: the lesser one is answered. At minute 10 one number is in force
# alone, the second is in force beside an open version, and the third has a canceled one.
after active-port

let second port attempt=1 id=2 status=active subject=2025331235
let third port due=100 id=3 lrn=2025550000 new=CCCC old=AAAA phase=initial subject=2025331235
let fourth port due=100 id=4 status=canceled subject=2025331236

AAAA /subscriptionVersionNewSP-Create create tn=2025331235
     200 second attempt=0 phase=initial status=pending
BBBB /subscriptionVersionOldSP-Create concur tn=2025331235
     200 second attempt=0 status=pending
AAAA /subscriptionVersionActivate id=2
     200 second status=sending
AAAA,BBBB /downloads/acknowledge attempt=1 id=2
     200 second status=sending
CCCC /downloads/acknowledge attempt=1 id=2
     200 second
CCCC /subscriptionVersionNewSP-Create due=100 lrn=2025550000 new=CCCC old=AAAA tn=2025331235
     200 third
AAAA /subscriptionVersionNewSP-Create create due=100 tn=2025331236
     200 fourth phase=initial status=pending
AAAA /subscriptionVersionCancel id=4
     200 fourth
AAAA /lrns lrn=2025440001
     200 lrn=2025440001 spid=AAAA
NPAC /clock minute=10
     200 now=10

# the caller is unknown; and the routing number is another carrier's, there is no such version, the caller
# is another, the number is busy, the status is wrong
ZZZZ /subscriptionVersionModify id=1 lrn=2025330000
     403 unknown_carrier 1
ZZZZ /subscriptionVersionModify id=9 lrn=2025440001
     403 unknown_carrier 1
ZZZZ /subscriptionVersionModify id=1 lrn=2025440001
     403 unknown_carrier 1
ZZZZ /subscriptionVersionModify id=2 lrn=2025440001
     403 unknown_carrier 1
ZZZZ /subscriptionVersionModify id=4 lrn=2025440001
     403 unknown_carrier 1

# the routing number is another carrier's; and the caller is another, the number is busy, the status is wrong
CCCC /subscriptionVersionModify id=1 lrn=2025550000
     409 bad_lrn 7
AAAA /subscriptionVersionModify id=2 lrn=2025550000
     409 bad_lrn 7
AAAA /subscriptionVersionModify id=4 lrn=2025550000
     409 bad_lrn 7

# the caller is another; and the number is busy, the status is wrong
CCCC /subscriptionVersionModify id=2 lrn=2025440001
     403 not_yours 11
BBBB /subscriptionVersionModify id=4 lrn=2025440001
     403 not_yours 11

# the number is busy, and the status is wrong
CCCC /subscriptionVersionModify id=3 lrn=2025550000
     409 busy 12

# each of them alone; nobody has registered the routing number of the first
AAAA /subscriptionVersionModify id=1 lrn=2025440009
     409 bad_lrn 7
AAAA /subscriptionVersionModify id=9 lrn=2025440009
     404 not_found 10
BBBB /subscriptionVersionModify id=1 lrn=2025440001
     403 not_yours 11
AAAA /subscriptionVersionModify id=2 lrn=2025440001
     409 busy 12
AAAA /subscriptionVersionModify id=4 lrn=2025440001
     409 wrong_status 13

# and nothing has changed
CCCC /versions/1
     200 active
CCCC /versions/2
     200 second
CCCC /versions/3
     200 third
CCCC /versions/4
     200 fourth
AAAA /subscriptionVersionModify id=1 lrn=2025440001
     200 active attempt=2 since=10 status=sending
