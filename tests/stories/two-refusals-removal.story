# Refusals of a conflict's removal, two at a time: the lesser one is answered. One port is in conflict with
# both creates, the second with the old provider's alone; the third is pending with the new provider's alone,
# and the fourth with both.
after opening

let second port due=100 id=2 lrn=null status=conflict subject=2025331235
let third port due=100 id=3 phase=initial subject=2025331236
let fourth port due=100 id=4 subject=2025331237

AAAA /subscriptionVersionNewSP-Create create due=100
     200 port due=100 phase=initial
BBBB /subscriptionVersionOldSP-Create concur authorized=false due=100
     200 port due=100 status=conflict
BBBB /subscriptionVersionOldSP-Create concur authorized=false due=100 tn=2025331235
     200 second
AAAA /subscriptionVersionNewSP-Create create due=100 tn=2025331236
     200 third
AAAA /subscriptionVersionNewSP-Create create due=100 tn=2025331237
     200 fourth phase=initial
BBBB /subscriptionVersionOldSP-Create concur due=100 tn=2025331237
     200 fourth

# the caller is unknown; and there is no such version, the caller is another, the status is wrong, a create
# is missing
ZZZZ /subscriptionVersionRemoveFromConflict id=9
     403 unknown_carrier 1
ZZZZ /subscriptionVersionRemoveFromConflict id=1
     403 unknown_carrier 1
ZZZZ /subscriptionVersionRemoveFromConflict id=4
     403 unknown_carrier 1
ZZZZ /subscriptionVersionRemoveFromConflict id=2
     403 unknown_carrier 1

# the caller is another; and the status is wrong, a create is missing
CCCC /subscriptionVersionRemoveFromConflict id=4
     403 not_yours 11
CCCC /subscriptionVersionRemoveFromConflict id=2
     403 not_yours 11

# the status is wrong; and a create is missing, it is too early
BBBB /subscriptionVersionRemoveFromConflict id=3
     409 wrong_status 13
AAAA /subscriptionVersionRemoveFromConflict id=4
     409 wrong_status 13

# a create is missing, and it is too early
AAAA /subscriptionVersionRemoveFromConflict id=2
     409 not_concurred 16

# each of them alone
BBBB /subscriptionVersionRemoveFromConflict id=9
     404 not_found 10
CCCC /subscriptionVersionRemoveFromConflict id=1
     403 not_yours 11
BBBB /subscriptionVersionRemoveFromConflict id=4
     409 wrong_status 13
BBBB /subscriptionVersionRemoveFromConflict id=2
     409 not_concurred 16
AAAA /subscriptionVersionRemoveFromConflict id=1
     409 too_early 20

# and nothing has changed
CCCC /versions/1
     200 port due=100 status=conflict
CCCC /versions/2
     200 second
CCCC /versions/3
     200 third
CCCC /versions/4
     200 fourth
