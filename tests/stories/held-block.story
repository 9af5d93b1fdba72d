# The second used number is sent again; then the block is assigned to CCCC, acknowledged by all, and routes the numbers
# that have no version of their own.
after first-used-number

NPAC /clock minute=20
     200 now=20
NPAC /blocks/assign assignment
     409 open_ports 23
BBBB /subscriptionVersionCancel id=2
     409 protected 21
BBBB /subscriptionVersionActivate id=2
     200 second attempt=2 since=20 status=sending
NPAC /clock minute=21
     200 now=21
AAAA,BBBB /downloads/acknowledge attempt=2 id=2
     200 second attempt=2 since=20 status=sending
CCCC /downloads/acknowledge attempt=2 id=2
     200 second attempt=2 since=21 status=active
NPAC /clock minute=22
     200 now=22
NPAC /blocks/assign assignment
     200 held
CCCC /blocks/release block=2025337
     409 wrong_status 13
CCCC /query uri=tel:+12025337003
     200 uri=tel:+12025337003;npdi
NPAC /clock minute=23
     200 now=23
AAAA,BBBB /downloads/acknowledge attempt=1 id=3
     200 held
CCCC /downloads/acknowledge attempt=1 id=3
     200 held since=23 status=active
AAAA /query uri=tel:+12025337001
     200 uri=tel:+12025337001;npdi;rn=+12025330000
AAAA /query uri=tel:+12025337002
     200 uri=tel:+12025337002;npdi;rn=+12025330000
AAAA /query uri=tel:+12025337003
     200 uri=tel:+12025337003;npdi;rn=+12025550000
AAAA /query uri=tel:+12025336003
     200 uri=tel:+12025336003;npdi
