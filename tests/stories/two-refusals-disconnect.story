# Refusals of a disconnect, two at a time: the lesser one is answered. At minute 10 one number is in force
# alone, the second is in force beside an open version, and the third has a canceled one.
after active-port

let second port attempt=1 id=2 status=active subject=2025331235
let third port due=100 id=3 lrn=2025550000 new=CCCC old=AAAA phase=initial subject=2025331235
let fourth port due=100 id=4 status=canceled subject=2025331236

AAAA /subscriptionVersionNewSP-Create create tn=2025331235
     200 second attempt=0 phase=initial status=pending
BBBB /subscriptionVersionOldSP-Create concur tn=2025331235
     200 second attempt=0 status=pending
AAAA /subscriptionVersionActivate id=2
     200 second status=sending
AAAA /downloads/acknowledge attempt=1 id=2
     200 second status=sending
BBBB /downloads/acknowledge attempt=1 id=2
     200 second status=sending
CCCC /downloads/acknowledge attempt=1 id=2
     200 second
CCCC /subscriptionVersionNewSP-Create due=100 lrn=2025550000 new=CCCC old=AAAA tn=2025331235
     200 third
AAAA /subscriptionVersionNewSP-Create create due=100 tn=2025331236
     200 fourth phase=initial status=pending
AAAA /subscriptionVersionCancel id=4
     200 fourth
NPAC /clock minute=10
     200 now=10

# the caller is unknown; and there is no such version, the caller is another, the number is busy, the status
# is wrong, the release has passed
ZZZZ /subscriptionVersionDisconnect id=9
     403 unknown_carrier 1
ZZZZ /subscriptionVersionDisconnect id=1
     403 unknown_carrier 1
ZZZZ /subscriptionVersionDisconnect id=2
     403 unknown_carrier 1
ZZZZ /subscriptionVersionDisconnect id=4
     403 unknown_carrier 1
ZZZZ /subscriptionVersionDisconnect id=1 release=9
     403 unknown_carrier 1

# there is no such version, and the release has passed
AAAA /subscriptionVersionDisconnect id=9 release=9
     404 not_found 10

# the caller is another; and the number is busy, the status is wrong, the release has passed
BBBB /subscriptionVersionDisconnect id=2
     403 not_yours 11
BBBB /subscriptionVersionDisconnect id=4
     403 not_yours 11
BBBB /subscriptionVersionDisconnect id=1 release=9
     403 not_yours 11

# the number is busy; and the status is wrong, the release has passed
CCCC /subscriptionVersionDisconnect id=3
     409 busy 12
AAAA /subscriptionVersionDisconnect id=2 release=9
     409 busy 12

# the status is wrong, and the release has passed
AAAA /subscriptionVersionDisconnect id=4 release=9
     409 wrong_status 13

# each of them alone
AAAA /subscriptionVersionDisconnect id=9
     404 not_found 10
BBBB /subscriptionVersionDisconnect id=1
     403 not_yours 11
AAAA /subscriptionVersionDisconnect id=2
     409 busy 12
AAAA /subscriptionVersionDisconnect id=4
     409 wrong_status 13
AAAA /subscriptionVersionDisconnect id=1 release=9
     409 due_past 14

# and nothing has changed
CCCC /versions/1
     200 active
CCCC /versions/2
     200 second
CCCC /versions/3
     200 third
CCCC /versions/4
     200 fourth
AAAA /subscriptionVersionDisconnect id=1 release=10
     200 active attempt=2 since=10 status=sending
