# A line that is named as used and has a version in force already counts once, and gets no other version.
after active-port

BBBB /blocks/donate donation block=2025331 used=234,200..299
     200 block=2025331 ids=2..100
CCCC /versions/1
     200 active
CCCC /versions/35
     200 first id=35 subject=2025331233
CCCC /versions/36
     200 first id=36 subject=2025331235
CCCC /numbers/2025331234
     200 in_force=1 open=null
CCCC /query uri=tel:+12025331234
     200 uri=tel:+12025331234;npdi;rn=+12025440000
