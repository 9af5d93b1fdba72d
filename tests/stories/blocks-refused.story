# Each refusal of a donation, an assignment, a release, and of a create for a number of a block.
after opening

ZZZZ,NPAC /blocks/donate donation
     403 unknown_carrier 1
BBBB /blocks/donate donation block=2025347
     404 unknown_code 3
CCCC /blocks/donate donation
     409 bad_lrn 7
CCCC /blocks/donate donation lrn=2025550000
     403 not_yours 11
BBBB /blocks/donate donation used=100..200
     409 contaminated 22
NPAC /blocks/assign assignment
     404 not_found 10
NPAC,CCCC /blocks/release block=2025337
     404 not_found 10
BBBB /blocks/donate donation
     200 block=2025337 ids=1,2
BBBB /blocks/donate donation
     409 open_ports 23
NPAC,CCCC /blocks/release block=2025337
     404 not_found 10
AAAA /subscriptionVersionNewSP-Create create tn=2025337009
     409 in_pool 8
AAAA,BBBB /downloads/acknowledge attempt=1 id=1
     200 first
CCCC /downloads/acknowledge attempt=1 id=1
     200 first status=active
NPAC /clock minute=15
     200 now=15
BBBB /subscriptionVersionCancel id=2
     409 protected 21
NPAC /blocks/assign assignment
     409 open_ports 23
BBBB /subscriptionVersionActivate id=2
     200 second attempt=2 since=15 status=sending
AAAA,BBBB /downloads/acknowledge attempt=2 id=2
     200 second attempt=2 since=15 status=sending
CCCC /downloads/acknowledge attempt=2 id=2
     200 second attempt=2 since=15 status=active
BBBB /blocks/donate donation
     409 block_taken 24

ZZZZ /blocks/assign assignment
     403 not_admin 2
BBBB,CCCC /blocks/assign assignment
     403 not_admin 2
NPAC /blocks/assign assignment holder=ZZZZ
     403 unknown_carrier 1
NPAC /blocks/assign assignment holder=NPAC
     403 unknown_carrier 1
NPAC /blocks/assign assignment block=2025347
     404 unknown_code 3
NPAC /blocks/assign assignment lrn=2025440000
     409 bad_lrn 7
NPAC /blocks/assign assignment lrn=2025990000
     409 bad_lrn 7
NPAC /blocks/assign assignment block=2025336
     404 not_found 10
NPAC /blocks/assign assignment
     200 held due=15 since=15
NPAC /blocks/assign assignment
     409 block_taken 24
CCCC /blocks/release block=2025337
     409 wrong_status 13

AAAA,BBBB /blocks/release block=2025337
     403 not_yours 11
ZZZZ /blocks/release block=2025337
     403 unknown_carrier 1
NPAC /blocks/release block=2025347
     404 unknown_code 3
NPAC /blocks/release block=2025336
     404 not_found 10
AAAA,BBBB /downloads/acknowledge attempt=1 id=3
     200 held due=15 since=15
CCCC /downloads/acknowledge attempt=1 id=3
     200 held due=15 since=15 status=active
NPAC /blocks/assign assignment
     409 block_taken 24
CCCC /blocks/release block=2025337
     200 held attempt=2 due=15 since=15
NPAC /blocks/assign assignment
     409 block_taken 24
