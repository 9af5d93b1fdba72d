# Refusals of a cancel, two at a time: the lesser one is answered. One port is cancel-pending, the other has
# the new provider's create alone.
after opening

let second port due=100 id=2 phase=initial subject=2025331235

AAAA /subscriptionVersionNewSP-Create create due=100
     200 port due=100 phase=initial
BBBB /subscriptionVersionOldSP-Create concur due=100
     200 port due=100
AAAA /subscriptionVersionCancel id=1
     200 port due=100 phase=initial status=cancel-pending
AAAA /subscriptionVersionNewSP-Create create due=100 tn=2025331235
     200 second

# the caller is unknown; and there is no such version, the caller is another, the status is wrong
ZZZZ /subscriptionVersionCancel id=9
     403 unknown_carrier 1
ZZZZ /subscriptionVersionCancel id=2
     403 unknown_carrier 1
ZZZZ /subscriptionVersionCancel id=1
     403 unknown_carrier 1

# the caller is another, and the status is wrong
CCCC /subscriptionVersionCancel id=1
     403 not_yours 11

# each of them alone
AAAA /subscriptionVersionCancel id=9
     404 not_found 10
CCCC /subscriptionVersionCancel id=2
     403 not_yours 11
BBBB /subscriptionVersionCancel id=2
     403 not_yours 11
AAAA /subscriptionVersionCancel id=1
     409 wrong_status 13
BBBB /subscriptionVersionCancel id=1
     409 wrong_status 13

# and nothing has changed
CCCC /versions/1
     200 port due=100 phase=initial status=cancel-pending
CCCC /versions/2
     200 second
