# Refusals of a conflict, two at a time: the lesser one is answered. One port is pending, the second too, and
# its conflict is spent, the third is cancel-pending, and the fourth is in conflict.
after opening

let second port due=100 id=2 subject=2025331235
let third port due=100 id=3 subject=2025331236
let fourth port due=100 id=4 subject=2025331237

AAAA /subscriptionVersionNewSP-Create create due=100
     200 port due=100 phase=initial
BBBB /subscriptionVersionOldSP-Create concur due=100
     200 port due=100
AAAA /subscriptionVersionNewSP-Create create due=100 tn=2025331235
     200 second phase=initial
BBBB /subscriptionVersionOldSP-Create concur authorized=false due=100 tn=2025331235
     200 second status=conflict
BBBB /subscriptionVersionRemoveFromConflict id=2
     200 second
AAAA /subscriptionVersionNewSP-Create create due=100 tn=2025331236
     200 third phase=initial
BBBB /subscriptionVersionOldSP-Create concur due=100 tn=2025331236
     200 third
AAAA /subscriptionVersionCancel id=3
     200 third phase=initial status=cancel-pending
AAAA /subscriptionVersionNewSP-Create create due=100 tn=2025331237
     200 fourth phase=initial
BBBB /subscriptionVersionConflict id=4
     200 fourth status=conflict

# the caller is unknown; and there is no such version, the caller is another, the status is wrong, the
# conflict is spent
ZZZZ /subscriptionVersionConflict id=9
     403 unknown_carrier 1
ZZZZ /subscriptionVersionConflict id=1
     403 unknown_carrier 1
ZZZZ /subscriptionVersionConflict id=3
     403 unknown_carrier 1
ZZZZ /subscriptionVersionConflict id=2
     403 unknown_carrier 1

# the caller is another; and the status is wrong, the conflict is spent
AAAA /subscriptionVersionConflict id=3
     403 not_yours 11
AAAA /subscriptionVersionConflict id=2
     403 not_yours 11

# the status is wrong, and the conflict is spent
BBBB /subscriptionVersionConflict id=4
     409 wrong_status 13

# each of them alone
BBBB /subscriptionVersionConflict id=9
     404 not_found 10
AAAA /subscriptionVersionConflict id=1
     403 not_yours 11
BBBB /subscriptionVersionConflict id=3
     409 wrong_status 13
BBBB /subscriptionVersionConflict id=2
     409 conflict_spent 18

# it is too late; and the caller is unknown, another, the status is wrong, the conflict is spent
NPAC /clock minute=71
     200 now=71
ZZZZ /subscriptionVersionConflict id=1
     403 unknown_carrier 1
AAAA /subscriptionVersionConflict id=1
     403 not_yours 11
BBBB /subscriptionVersionConflict id=3
     409 wrong_status 13
BBBB /subscriptionVersionConflict id=2
     409 conflict_spent 18
BBBB /subscriptionVersionConflict id=1
     409 too_late 19

# and nothing has changed
CCCC /versions/1
     200 port due=100
CCCC /versions/2
     200 second
CCCC /versions/3
     200 third phase=final status=cancel-pending
CCCC /versions/4
     200 fourth status=conflict
