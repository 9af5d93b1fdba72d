# Refusals of a cancellation's acknowledgement, two at a time: the lesser one is answered. The new provider
# cancelled the first port, the old one the second, and nobody the third.
after opening

let second port due=100 id=2 phase=initial status=cancel-pending subject=2025331235
let third port due=100 id=3 subject=2025331236

AAAA /subscriptionVersionNewSP-Create create due=100
     200 port due=100 phase=initial
BBBB /subscriptionVersionOldSP-Create concur due=100
     200 port due=100
AAAA /subscriptionVersionCancel id=1
     200 port due=100 phase=initial status=cancel-pending
AAAA /subscriptionVersionNewSP-Create create due=100 tn=2025331235
     200 second status=pending
BBBB /subscriptionVersionOldSP-Create concur due=100 tn=2025331235
     200 second phase=null status=pending
BBBB /subscriptionVersionCancel id=2
     200 second
AAAA /subscriptionVersionNewSP-Create create due=100 tn=2025331236
     200 third phase=initial
BBBB /subscriptionVersionOldSP-Create concur due=100 tn=2025331236
     200 third

# the caller is unknown; and there is no such version, the caller is another, the status is wrong
ZZZZ /subscriptionVersionOldSP-CancellationAcknowledge id=9
     403 unknown_carrier 1
ZZZZ /subscriptionVersionOldSP-CancellationAcknowledge id=1
     403 unknown_carrier 1
ZZZZ /subscriptionVersionOldSP-CancellationAcknowledge id=3
     403 unknown_carrier 1
ZZZZ /subscriptionVersionNewSP-CancellationAcknowledge id=9
     403 unknown_carrier 1
ZZZZ /subscriptionVersionNewSP-CancellationAcknowledge id=2
     403 unknown_carrier 1
ZZZZ /subscriptionVersionNewSP-CancellationAcknowledge id=3
     403 unknown_carrier 1

# the caller is another, and the status is wrong
AAAA /subscriptionVersionOldSP-CancellationAcknowledge id=3
     403 not_yours 11
BBBB /subscriptionVersionNewSP-CancellationAcknowledge id=3
     403 not_yours 11
CCCC /subscriptionVersionNewSP-CancellationAcknowledge id=3
     403 not_yours 11

# each of them alone
BBBB /subscriptionVersionOldSP-CancellationAcknowledge id=9
     404 not_found 10
AAAA /subscriptionVersionNewSP-CancellationAcknowledge id=9
     404 not_found 10
AAAA /subscriptionVersionOldSP-CancellationAcknowledge id=1
     403 not_yours 11
BBBB /subscriptionVersionNewSP-CancellationAcknowledge id=2
     403 not_yours 11
AAAA /subscriptionVersionNewSP-CancellationAcknowledge id=1
     403 not_yours 11
BBBB /subscriptionVersionOldSP-CancellationAcknowledge id=2
     403 not_yours 11
BBBB /subscriptionVersionOldSP-CancellationAcknowledge id=3
     409 wrong_status 13
AAAA /subscriptionVersionNewSP-CancellationAcknowledge id=3
     409 wrong_status 13

# and nothing has changed
BBBB /subscriptionVersionOldSP-CancellationAcknowledge id=1
     200 port due=100 status=canceled
AAAA /subscriptionVersionNewSP-CancellationAcknowledge id=2
     200 second phase=null status=canceled
CCCC /versions/3
     200 third
