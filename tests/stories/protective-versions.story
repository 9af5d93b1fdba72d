# A protective version goes the way of any other, but that its provider cannot cancel it where it has failed: so a used
# number stays with its donor.
after donated-block

let away first attempt=0 due=16 id=3 lrn=2025440000 new=AAAA old=BBBB since=16 status=pending
let delete delete-of-block id=2 attempt=3 minute=16 subject=2025337002

# sending: nothing can be commanded
BBBB /subscriptionVersionCancel id=1
     409 wrong_status 13
CCCC /subscriptionVersionCancel id=1
     403 not_yours 11
BBBB /subscriptionVersionActivate id=1
     409 wrong_status 13
BBBB /subscriptionVersionConflict id=1
     409 wrong_status 13
BBBB /subscriptionVersionDisconnect id=1
     409 busy 12
AAAA,BBBB /downloads/acknowledge attempt=1 id=1
     200 first
CCCC /downloads/acknowledge attempt=1 id=1
     200 first status=active

# failed: it is sent again and not cancelled
NPAC /clock minute=15
     200 now=15
CCCC /subscriptionVersionCancel id=2
     403 not_yours 11
BBBB /subscriptionVersionCancel id=2
     409 protected 21
CCCC /subscriptionVersionActivate id=2
     403 not_yours 11
BBBB /subscriptionVersionDisconnect id=2
     409 busy 12
NPAC /numbers/2025337002
     200 in_force=null open=2
BBBB /subscriptionVersionActivate id=2
     200 second attempt=2 since=15 status=sending
AAAA,BBBB /downloads/acknowledge attempt=2 id=2
     200 second attempt=2 since=15
CCCC /downloads/acknowledge attempt=2 id=2
     200 second attempt=2 since=15 status=active

# active: its number is ported away, or given back
NPAC /clock minute=16
     200 now=16
AAAA /subscriptionVersionNewSP-Create create due=16 tn=2025337001
     200 away phase=initial
BBBB /subscriptionVersionOldSP-Create concur due=16 tn=2025337001
     200 away
AAAA /subscriptionVersionActivate id=3
     200 away attempt=1 status=sending
AAAA,BBBB /downloads/acknowledge attempt=1 id=3
     200 away attempt=1 status=sending
CCCC /downloads/acknowledge attempt=1 id=3
     200 away attempt=1 status=active
BBBB /versions/1
     200 first since=16 status=old
BBBB /subscriptionVersionDisconnect id=2
     200 second attempt=3 since=16
CCCC /downloads/10
     200 downloads=delete
AAAA,BBBB /downloads/acknowledge attempt=3 id=2
     200 second attempt=3 since=16
CCCC /downloads/acknowledge attempt=3 id=2
     200 second attempt=3 since=16 status=old
CCCC /subscriptionVersionNewSP-Create create due=16 lrn=2025550000 new=CCCC tn=2025337002
     409 in_pool 8

# given back by AAAA too, the number is in the pool, and not its donor's
AAAA /subscriptionVersionDisconnect id=3
     200 away attempt=2 status=sending
AAAA,BBBB /downloads/acknowledge attempt=2 id=3
     200 away attempt=2 status=sending
CCCC /downloads/acknowledge attempt=2 id=3
     200 away attempt=2 status=old
CCCC /subscriptionVersionNewSP-Create create due=16 lrn=2025550000 new=CCCC tn=2025337001
     409 in_pool 8
