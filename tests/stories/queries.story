# Queries after the first port, by URIs of every kind.
after first-port

AAAA /query uri=tel:+12025331234
     200 uri=tel:+12025331234;npdi;rn=+12025440000
AAAA /query uri=tel:+1-202-533-1234;rn=+12020000000;npdi
     200 uri=tel:+1-202-533-1234;rn=+12020000000;npdi
AAAA /query uri=TEL:+1(202)533-1234;a=1;ext=5
     200 uri=tel:+1(202)533-1234;ext=5;a=1;npdi;rn=+12025440000
AAAA /query uri=tel:+442079460000
     200 uri=tel:+442079460000
AAAA /query uri=tel:+1202533123
     200 uri=tel:+1202533123
AAAA /query uri=tel:+12025339999;rn=+12020000000
     200 uri=tel:+12025339999;npdi
AAAA /query uri=tel:+1-202-533-1234;B=2;rn-context=+1;A-b=%41;isub=9
     200 uri=tel:+1-202-533-1234;isub=9;A-b=%41;B=2;npdi;rn=+12025440000
AAAA /query uri=TEL:+1-303-555-1234;b=1
     200 uri=TEL:+1-303-555-1234;b=1
AAAA /query uri=tel:+12025331234;cic=+10333
     200 uri=tel:+12025331234;cic=+10333;npdi;rn=+12025440000
