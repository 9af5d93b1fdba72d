# While the delete of a block is open, its holder still serves its numbers, and one of them without a version of its own
# takes no create; one with a version of its own does.
after released-at-50

let onward port due=60 id=4 phase=initial since=55 subject=2025337001

NPAC /clock minute=55
     200 now=55
AAAA /subscriptionVersionNewSP-Create create due=60 old=CCCC tn=2025337003
     409 busy 12
CCCC /subscriptionVersionOldSP-Create concur due=60 old=CCCC tn=2025337003
     409 busy 12
AAAA /subscriptionVersionNewSP-Create create due=60 tn=2025337003
     409 wrong_old 9
AAAA /numbers/2025337003
     200 in_force=null open=null
AAAA /subscriptionVersionNewSP-Create create due=60 tn=2025337001
     200 onward
