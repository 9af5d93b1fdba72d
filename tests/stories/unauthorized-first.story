# The old provider creates first, and without authorization: a conflict, which waits for the new provider's
# create and then for its window.
after opening

let disputed port due=100 status=conflict

BBBB /subscriptionVersionOldSP-Create concur authorized=false due=100
     200 disputed lrn=null
AAAA /subscriptionVersionActivate id=1
     409 wrong_status 13
NPAC /clock minute=1
     200 now=1
BBBB /subscriptionVersionRemoveFromConflict id=1
     409 not_concurred 16
NPAC /clock minute=2
     200 now=2
AAAA /subscriptionVersionNewSP-Create create due=100
     200 disputed
NPAC /clock minute=119
     200 now=119
AAAA /subscriptionVersionRemoveFromConflict id=1
     409 too_early 20
NPAC /clock minute=120
     200 now=120
AAAA /subscriptionVersionRemoveFromConflict id=1
     200 port due=100 since=120
AAAA /subscriptionVersionActivate id=1
     200 port attempt=1 due=100 since=120 status=sending
