# Whom a number of a block is ported from: the code's holder, then nobody but of the used numbers, then the block's holder.
after opening

let used first attempt=0 due=23 id=4 lrn=2025440000 new=AAAA phase=initial since=23 status=pending
let others first attempt=0 due=23 id=5 lrn=2025440000 new=AAAA old=CCCC phase=initial since=23 status=pending subject=2025337003

AAAA /subscriptionVersionNewSP-Create create old=CCCC tn=2025337003
     409 wrong_old 9
BBBB /blocks/donate donation
     200 block=2025337 ids=1,2

# in the pool: nobody serves what is not in use; the donor serves what is
AAAA /subscriptionVersionNewSP-Create create tn=2025337003
     409 in_pool 8
AAAA /subscriptionVersionNewSP-Create create old=CCCC tn=2025337003
     409 in_pool 8
AAAA /subscriptionVersionNewSP-Create create old=AAAA tn=2025337003
     409 in_pool 8
AAAA /subscriptionVersionNewSP-Create create old=CCCC tn=2025337001
     409 wrong_old 9
AAAA /subscriptionVersionNewSP-Create create tn=2025337001
     409 busy 12
AAAA,BBBB /downloads/acknowledge attempt=1 id=1
     200 first
CCCC /downloads/acknowledge attempt=1 id=1
     200 first status=active
NPAC /clock minute=15
     200 now=15
AAAA /subscriptionVersionNewSP-Create create due=15 tn=2025337002
     409 busy 12
AAAA /subscriptionVersionNewSP-Create create due=15 old=CCCC tn=2025337002
     409 wrong_old 9
BBBB /subscriptionVersionActivate id=2
     200 second attempt=2 since=15 status=sending
AAAA,BBBB /downloads/acknowledge attempt=2 id=2
     200 second attempt=2 since=15 status=sending
CCCC /downloads/acknowledge attempt=2 id=2
     200 second attempt=2 since=15 status=active

# while the block's version is sent, still nobody does
NPAC /clock minute=22
     200 now=22
NPAC /blocks/assign assignment
     200 held
AAAA /subscriptionVersionNewSP-Create create due=22 old=CCCC tn=2025337003
     409 in_pool 8
AAAA,BBBB /downloads/acknowledge attempt=1 id=3
     200 held
CCCC /downloads/acknowledge attempt=1 id=3
     200 held status=active

# held: the holder does, and the donor what it uses
NPAC /clock minute=23
     200 now=23
AAAA /subscriptionVersionNewSP-Create create due=23 tn=2025337003
     409 wrong_old 9
CCCC /subscriptionVersionNewSP-Create create due=23 lrn=2025550000 new=CCCC old=CCCC tn=2025337003
     409 wrong_old 9
AAAA /subscriptionVersionNewSP-Create create due=23 old=CCCC tn=2025337001
     409 wrong_old 9
AAAA /subscriptionVersionNewSP-Create create due=23 tn=2025337001
     200 used
AAAA /subscriptionVersionNewSP-Create create due=23 old=CCCC tn=2025337003
     200 others
AAAA /subscriptionVersionCancel id=5
     200 others phase=null status=canceled

# an open version beside one in force does not keep the block from being given back
CCCC /blocks/release block=2025337
     200 held attempt=2 since=23
AAAA,BBBB /downloads/acknowledge attempt=2 id=3
     200 held attempt=2 since=23
CCCC /downloads/acknowledge attempt=2 id=3
     200 held attempt=2 since=23 status=old
AAAA /subscriptionVersionNewSP-Create create due=23 old=CCCC tn=2025337003
     409 in_pool 8
BBBB /subscriptionVersionOldSP-Create concur due=23 tn=2025337001
     200 used phase=null
