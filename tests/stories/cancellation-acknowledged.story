# The other provider acknowledges a cancellation, in the last minute of the windows too; nobody else may,
# and in the minute after it is too late.
after created-for-5000

let third far id=2 subject=2025331235
let fourth far id=3 subject=2025331236

AAAA /subscriptionVersionNewSP-Create create due=5000 tn=2025331235
     200 third phase=initial since=10
BBBB /subscriptionVersionOldSP-Create concur due=5000 tn=2025331235
     200 third since=10
AAAA /subscriptionVersionNewSP-Create create due=5000 tn=2025331236
     200 fourth phase=initial since=10
BBBB /subscriptionVersionOldSP-Create concur due=5000 tn=2025331236
     200 fourth since=10

BBBB /subscriptionVersionOldSP-CancellationAcknowledge id=1
     409 wrong_status 13
AAAA /subscriptionVersionNewSP-CancellationAcknowledge id=1
     409 wrong_status 13
BBBB /subscriptionVersionCancel id=1
     200 far phase=initial since=10 status=cancel-pending
AAAA /subscriptionVersionCancel id=2
     200 third phase=initial since=10 status=cancel-pending
BBBB /subscriptionVersionCancel id=3
     200 fourth phase=initial since=10 status=cancel-pending

BBBB /subscriptionVersionOldSP-CancellationAcknowledge id=1
     403 not_yours 11
BBBB /subscriptionVersionNewSP-CancellationAcknowledge id=1
     403 not_yours 11
CCCC /subscriptionVersionNewSP-CancellationAcknowledge id=1
     403 not_yours 11
AAAA /subscriptionVersionOldSP-CancellationAcknowledge id=1
     403 not_yours 11
AAAA /subscriptionVersionNewSP-CancellationAcknowledge id=2
     403 not_yours 11
AAAA /subscriptionVersionOldSP-CancellationAcknowledge id=2
     403 not_yours 11
CCCC /subscriptionVersionOldSP-CancellationAcknowledge id=2
     403 not_yours 11
BBBB /subscriptionVersionNewSP-CancellationAcknowledge id=2
     403 not_yours 11
CCCC /versions/1
     200 far phase=initial since=10 status=cancel-pending
CCCC /versions/2
     200 third phase=initial since=10 status=cancel-pending

NPAC /clock minute=50
     200 now=50
AAAA /subscriptionVersionNewSP-CancellationAcknowledge id=1
     200 far since=50 status=canceled
AAAA /subscriptionVersionNewSP-CancellationAcknowledge id=1
     409 wrong_status 13
NPAC /clock minute=129
     200 now=129
BBBB /subscriptionVersionOldSP-CancellationAcknowledge id=2
     200 third since=129 status=canceled
BBBB /subscriptionVersionOldSP-CancellationAcknowledge id=2
     409 wrong_status 13
NPAC /clock minute=130
     200 now=130
AAAA /subscriptionVersionNewSP-CancellationAcknowledge id=3
     409 wrong_status 13
CCCC /versions/3
     200 fourth since=130 status=conflict
