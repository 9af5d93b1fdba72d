# Refusals of a second create, two at a time: the lesser one is answered. Three numbers have one create each:
# the new provider's, once with a conflict that is spent and once without, and the old provider's.
after opening

let spent authorized=false due=100 new=AAAA old=BBBB tn=2025331234
let unspent spent tn=2025331235
let answer due=100 lrn=2025440000 new=AAAA old=BBBB tn=2025331236

AAAA /subscriptionVersionNewSP-Create create due=100
     200 port due=100 phase=initial
BBBB /subscriptionVersionConflict id=1
     200 port due=100 status=conflict
AAAA /subscriptionVersionNewSP-Create create due=100 tn=2025331235
     200 port due=100 id=2 phase=initial subject=2025331235
BBBB /subscriptionVersionOldSP-Create concur due=100 tn=2025331236
     200 port due=100 id=3 lrn=null phase=initial subject=2025331236

# the caller is unknown, and another than the provider; and the routing number is another's, the due minute
# is another, the conflict is spent
ZZZZ /subscriptionVersionOldSP-Create unspent
     403 unknown_carrier 1
ZZZZ /subscriptionVersionNewSP-Create answer lrn=2025550000
     403 unknown_carrier 1
ZZZZ /subscriptionVersionOldSP-Create unspent due=99
     403 unknown_carrier 1
ZZZZ /subscriptionVersionOldSP-Create spent
     403 unknown_carrier 1
ZZZZ /subscriptionVersionNewSP-Create answer
     403 unknown_carrier 1
ZZZZ /subscriptionVersionNewSP-Create answer due=99
     403 unknown_carrier 1

# the routing number is another's; and the caller is another, the due minute is another
BBBB /subscriptionVersionNewSP-Create answer lrn=2025330000
     409 bad_lrn 7
AAAA /subscriptionVersionNewSP-Create answer due=99 lrn=2025550000
     409 bad_lrn 7

# the caller is another; and the due minute is another, the conflict is spent
AAAA /subscriptionVersionOldSP-Create unspent due=99
     403 not_yours 11
AAAA /subscriptionVersionOldSP-Create spent
     403 not_yours 11
BBBB /subscriptionVersionNewSP-Create answer due=99
     403 not_yours 11

# the due minute is another, and the conflict is spent; each alone
BBBB /subscriptionVersionOldSP-Create spent due=99
     409 due_mismatch 15
BBBB /subscriptionVersionOldSP-Create unspent due=99
     409 due_mismatch 15
AAAA /subscriptionVersionNewSP-Create answer due=101
     409 due_mismatch 15
BBBB /subscriptionVersionOldSP-Create spent
     409 conflict_spent 18

# a conflict is too late; and the caller is unknown, another, the due minute is another, the conflict is spent
NPAC /clock minute=71
     200 now=71
ZZZZ /subscriptionVersionOldSP-Create unspent
     403 unknown_carrier 1
AAAA /subscriptionVersionOldSP-Create unspent
     403 not_yours 11
BBBB /subscriptionVersionOldSP-Create unspent due=99
     409 due_mismatch 15
BBBB /subscriptionVersionOldSP-Create spent
     409 conflict_spent 18
BBBB /subscriptionVersionOldSP-Create unspent
     409 too_late 19

# and nothing has changed
BBBB /subscriptionVersionOldSP-Create spent authorized=true
     200 port due=100 status=conflict
BBBB /subscriptionVersionOldSP-Create unspent authorized=true
     200 port due=100 id=2 subject=2025331235
AAAA /subscriptionVersionNewSP-Create answer
     200 port due=100 id=3 subject=2025331236
