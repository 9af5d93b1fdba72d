# A block whose version some have acknowledged is held, and is given back only when the last has.
after donated-block

let away port due=37 id=4 old=CCCC phase=initial since=37 subject=2025337003

AAAA,BBBB /downloads/acknowledge attempt=1 id=1
     200 first
AAAA,BBBB /downloads/acknowledge attempt=1 id=2
     200 second
CCCC /downloads/acknowledge attempt=1 id=1
     200 first status=active
CCCC /downloads/acknowledge attempt=1 id=2
     200 second status=active
NPAC /clock minute=22
     200 now=22
NPAC /blocks/assign assignment
     200 held
AAAA /downloads/acknowledge attempt=1 id=3
     200 held
NPAC /clock minute=37
     200 now=37
CCCC,NPAC /blocks/release block=2025337
     409 wrong_status 13
AAAA /versions/3
     200 held since=37 status=partial-failure
NPAC /blocks/assign assignment
     409 block_taken 24
AAAA /query uri=tel:+12025337003
     200 uri=tel:+12025337003;npdi;rn=+12025550000
# its holder serves its numbers, and may lose one
AAAA /subscriptionVersionNewSP-Create create due=37 old=CCCC tn=2025337003
     200 away
CCCC /blocks/release block=2025337
     409 wrong_status 13
NPAC /clock minute=50
     200 now=50
BBBB /downloads/acknowledge attempt=1 id=3
     200 held since=37 status=partial-failure
CCCC /downloads/acknowledge attempt=1 id=3
     200 held since=50 status=active
CCCC /blocks/release block=2025337
     409 open_ports 23
