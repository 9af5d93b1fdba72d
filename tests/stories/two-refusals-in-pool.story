# Refusals of what is asked of a block's numbers, two at a time: the lesser one is answered. At 55 the block is being given
# back, at 65 it is in the pool again; at 80 a protective version of another block has failed.
after released-at-50

let pooled due=65 lrn=2025440000 new=AAAA old=CCCC tn=2025337003
let old-pooled authorized=true due=65 new=AAAA old=CCCC tn=2025337003

NPAC /clock minute=55
     200 now=55

# the number is busy, since its block is being given back; and the caller is unknown, the routing number is another's, the
# old provider is wrong, the caller is another, the due minute has passed, a conflict is too late
ZZZZ /subscriptionVersionNewSP-Create pooled
     403 unknown_carrier 1
AAAA /subscriptionVersionNewSP-Create pooled lrn=2025550000
     409 bad_lrn 7
AAAA /subscriptionVersionNewSP-Create pooled old=BBBB
     409 wrong_old 9
BBBB /subscriptionVersionNewSP-Create pooled
     403 not_yours 11
AAAA /subscriptionVersionNewSP-Create pooled due=54
     409 busy 12
CCCC /subscriptionVersionOldSP-Create old-pooled authorized=false
     409 busy 12
AAAA /subscriptionVersionNewSP-Create pooled
     409 busy 12

NPAC /clock minute=65
     200 now=65

# nobody serves the number; and the same
ZZZZ /subscriptionVersionNewSP-Create pooled
     403 unknown_carrier 1
AAAA /subscriptionVersionNewSP-Create pooled old=ZZZZ
     403 unknown_carrier 1
AAAA /subscriptionVersionNewSP-Create pooled lrn=2025550000
     409 bad_lrn 7
AAAA /subscriptionVersionNewSP-Create pooled old=AAAA
     409 in_pool 8
BBBB /subscriptionVersionNewSP-Create pooled
     409 in_pool 8
AAAA /subscriptionVersionNewSP-Create pooled due=64
     409 in_pool 8
CCCC /subscriptionVersionOldSP-Create old-pooled authorized=false
     409 in_pool 8
BBBB /subscriptionVersionOldSP-Create old-pooled
     409 in_pool 8
AAAA /subscriptionVersionNewSP-Create pooled
     409 in_pool 8
AAAA /numbers/2025337003
     200 in_force=null open=null

# a protective version that failed is not cancelled; and the caller is unknown, the caller is another
BBBB /blocks/donate donation block=2025338 used=001
     200 block=2025338 ids=4
NPAC /clock minute=80
     200 now=80
ZZZZ,NPAC /subscriptionVersionCancel id=4
     403 unknown_carrier 1
CCCC /subscriptionVersionCancel id=4
     403 not_yours 11
BBBB /subscriptionVersionCancel id=4
     409 protected 21
BBBB /versions/4
     200 first due=65 id=4 since=80 status=failed subject=2025338001
