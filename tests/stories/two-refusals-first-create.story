# Refusals of a first create, two at a time: the lesser one is answered. At minute 50, one number has an open
# version, another none, and the third is of a code that is not opened.
after opening

let taken due=100 lrn=2025440000 new=AAAA old=BBBB tn=2025331234
let free taken tn=2025331235
let closed taken tn=2025341234
let old-taken authorized=true due=100 new=AAAA old=BBBB tn=2025331234
let old-free old-taken tn=2025331235
let old-closed old-taken tn=2025341234

AAAA /subscriptionVersionNewSP-Create taken
     200 port due=100 phase=initial
NPAC /clock minute=50
     200 now=50

# a carrier is unknown; the code is not opened, the routing number is another's, the old provider is wrong,
# the caller is another, the number is busy, the due minute has passed, a conflict is too late
BBBB /subscriptionVersionOldSP-Create old-closed new=ZZZZ
     403 unknown_carrier 1
ZZZZ /subscriptionVersionNewSP-Create free new=ZZZZ
     403 unknown_carrier 1
AAAA /subscriptionVersionNewSP-Create free old=ZZZZ
     403 unknown_carrier 1
ZZZZ /subscriptionVersionNewSP-Create free
     403 unknown_carrier 1
BBBB /subscriptionVersionOldSP-Create old-taken new=ZZZZ
     403 unknown_carrier 1
BBBB /subscriptionVersionOldSP-Create old-free due=49 new=ZZZZ
     403 unknown_carrier 1
BBBB /subscriptionVersionOldSP-Create old-free authorized=false due=79 new=ZZZZ
     403 unknown_carrier 1

# the code is not opened; and the others
AAAA /subscriptionVersionNewSP-Create closed lrn=2025550000
     404 unknown_code 3
AAAA /subscriptionVersionNewSP-Create closed old=AAAA
     404 unknown_code 3
BBBB /subscriptionVersionNewSP-Create closed
     404 unknown_code 3
AAAA /subscriptionVersionNewSP-Create closed due=49
     404 unknown_code 3
BBBB /subscriptionVersionOldSP-Create old-closed authorized=false due=79
     404 unknown_code 3

# the routing number is another's; and the others
AAAA /subscriptionVersionNewSP-Create free lrn=2025550000 old=CCCC
     409 bad_lrn 7
BBBB /subscriptionVersionNewSP-Create free lrn=2025330000
     409 bad_lrn 7
AAAA /subscriptionVersionNewSP-Create taken lrn=2025550000
     409 bad_lrn 7
AAAA /subscriptionVersionNewSP-Create free due=49 lrn=2025550000
     409 bad_lrn 7

# the old provider is wrong; and the others
BBBB /subscriptionVersionNewSP-Create free old=CCCC
     409 wrong_old 9
AAAA /subscriptionVersionNewSP-Create taken old=CCCC
     409 wrong_old 9
AAAA /subscriptionVersionNewSP-Create free due=49 old=CCCC
     409 wrong_old 9
CCCC /subscriptionVersionOldSP-Create old-free authorized=false due=79 old=CCCC
     409 wrong_old 9

# the caller is another; and the others
BBBB /subscriptionVersionNewSP-Create taken
     403 not_yours 11
BBBB /subscriptionVersionNewSP-Create free due=49
     403 not_yours 11
AAAA /subscriptionVersionOldSP-Create old-free authorized=false due=79
     403 not_yours 11

# the number is busy; and the others
AAAA /subscriptionVersionNewSP-Create taken due=49
     409 busy 12
BBBB /subscriptionVersionOldSP-Create old-taken authorized=false due=79 new=CCCC
     409 busy 12

# the due minute has passed, and a conflict is too late
BBBB /subscriptionVersionOldSP-Create old-free authorized=false due=49
     409 due_past 14

# the same of the other provider's create
AAAA /subscriptionVersionNewSP-Create closed old=ZZZZ
     403 unknown_carrier 1
ZZZZ /subscriptionVersionNewSP-Create taken
     403 unknown_carrier 1
ZZZZ /subscriptionVersionNewSP-Create free due=49
     403 unknown_carrier 1
CCCC /subscriptionVersionOldSP-Create old-free new=ZZZZ old=CCCC
     403 unknown_carrier 1
ZZZZ /subscriptionVersionOldSP-Create old-free
     403 unknown_carrier 1
BBBB /subscriptionVersionOldSP-Create old-closed new=BBBB
     404 unknown_code 3
AAAA /subscriptionVersionOldSP-Create old-closed
     404 unknown_code 3
BBBB /subscriptionVersionOldSP-Create old-closed due=49
     404 unknown_code 3
BBBB /subscriptionVersionOldSP-Create old-free old=CCCC
     409 wrong_old 9
CCCC /subscriptionVersionOldSP-Create old-taken old=CCCC
     409 wrong_old 9
CCCC /subscriptionVersionOldSP-Create old-free due=49 old=CCCC
     409 wrong_old 9
AAAA /subscriptionVersionOldSP-Create old-taken new=CCCC
     403 not_yours 11
AAAA /subscriptionVersionOldSP-Create old-free due=49
     403 not_yours 11
BBBB /subscriptionVersionOldSP-Create old-taken due=49 new=CCCC
     409 busy 12

# each of them alone
AAAA /subscriptionVersionNewSP-Create closed
     404 unknown_code 3
AAAA /subscriptionVersionNewSP-Create free lrn=2025550000
     409 bad_lrn 7
AAAA /subscriptionVersionNewSP-Create free old=CCCC
     409 wrong_old 9
BBBB /subscriptionVersionNewSP-Create free
     403 not_yours 11
AAAA /subscriptionVersionNewSP-Create taken
     409 busy 12
AAAA /subscriptionVersionNewSP-Create free due=49
     409 due_past 14
BBBB /subscriptionVersionOldSP-Create old-free authorized=false due=79
     409 too_late 19

# and nothing has changed
CCCC /versions/1
     200 port due=100 phase=initial
AAAA /subscriptionVersionNewSP-Create free due=50
     200 port due=50 id=2 phase=initial since=50 subject=2025331235
