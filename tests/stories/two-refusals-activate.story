# Refusals of an activation, two at a time: the lesser one is answered. One port has the new provider's create
# alone, the second is in conflict, the third has both creates, and the fourth the old provider's alone.
after opening

AAAA /subscriptionVersionNewSP-Create create due=100
     200 port due=100 phase=initial
BBBB /subscriptionVersionOldSP-Create concur authorized=false due=100 tn=2025331235
     200 port due=100 id=2 lrn=null status=conflict subject=2025331235
AAAA /subscriptionVersionNewSP-Create create due=100 tn=2025331236
     200 port due=100 id=3 phase=initial subject=2025331236
BBBB /subscriptionVersionOldSP-Create concur due=100 tn=2025331236
     200 port due=100 id=3 subject=2025331236
BBBB /subscriptionVersionOldSP-Create concur due=100 tn=2025331237
     200 port due=100 id=4 lrn=null phase=initial subject=2025331237

# the caller is unknown; and there is no such version, its status is wrong, it is before its due minute
ZZZZ /subscriptionVersionActivate id=9
     403 unknown_carrier 1
ZZZZ /subscriptionVersionActivate id=2
     403 unknown_carrier 1
ZZZZ /subscriptionVersionActivate id=3
     403 unknown_carrier 1

# the caller is another; and the status is wrong, it is before its due minute
BBBB /subscriptionVersionActivate id=2
     403 not_yours 11
BBBB /subscriptionVersionActivate id=3
     403 not_yours 11

# the old provider has not concurred, or the new one not created, and it is before its due minute
AAAA /subscriptionVersionActivate id=1
     409 not_concurred 16
AAAA /subscriptionVersionActivate id=4
     409 not_concurred 16

# those that stand alone
AAAA /subscriptionVersionActivate id=9
     404 not_found 10
AAAA /subscriptionVersionActivate id=2
     409 wrong_status 13
AAAA /subscriptionVersionActivate id=3
     409 before_due 17

# at the due minute: the old provider has not concurred, and the caller is unknown, another
NPAC /clock minute=100
     200 now=100
ZZZZ /subscriptionVersionActivate id=1
     403 unknown_carrier 1
BBBB /subscriptionVersionActivate id=1
     403 not_yours 11
AAAA /subscriptionVersionActivate id=1
     409 not_concurred 16
AAAA /subscriptionVersionActivate id=4
     409 not_concurred 16

# the caller is unknown, and so another than the new provider; the new provider alone
ZZZZ /subscriptionVersionActivate id=3
     403 unknown_carrier 1
BBBB /subscriptionVersionActivate id=3
     403 not_yours 11
AAAA /subscriptionVersionActivate id=3
     200 port attempt=1 due=100 id=3 since=100 status=sending subject=2025331236
