# URIs in other spellings: of the ported number, of one that is not ported, and of none here.
after first-port

AAAA /query uri=tel:+1-202-533-1234
     200 uri=tel:+1-202-533-1234;npdi;rn=+12025440000
AAAA /query uri=tel:+1-(202).533-1234
     200 uri=tel:+1-(202).533-1234;npdi;rn=+12025440000
AAAA /query uri=tel:+12025331234;zz=1
     200 uri=tel:+12025331234;npdi;rn=+12025440000;zz=1
AAAA /query uri=tel:+12025331234;b;phone-context=c;ISUB=9;EXT=5;RN=+1;cic-context=+1
     200 uri=tel:+12025331234;EXT=5;ISUB=9;phone-context=c;b;cic-context=+1;npdi;rn=+12025440000
AAAA /query uri=tel:+1-202-533-1234;NPDI;rn=+1-202-544-0000
     200 uri=tel:+1-202-533-1234;NPDI;rn=+1-202-544-0000
AAAA /query uri=tel:+12025331234;xnpdi
     200 uri=tel:+12025331234;npdi;rn=+12025440000;xnpdi

AAAA /query uri=tel:+12025339999
     200 uri=tel:+12025339999;npdi
AAAA /query uri=tel:+12025339999;cic=+10333
     200 uri=tel:+12025339999;cic=+10333;npdi
AAAA /query uri=tel:+1-202-533-9999;npdi
     200 uri=tel:+1-202-533-9999;npdi
AAAA /query uri=tel:+1-202-533-9999;npdi;rn=+1-202-544-0000
     200 uri=tel:+1-202-533-9999;npdi;rn=+1-202-544-0000

AAAA /query uri=tel:+22025331234
     200 uri=tel:+22025331234
AAAA /query uri=tel:+120253312345
     200 uri=tel:+120253312345
AAAA /query uri=tel:+1-800-123-4567
     200 uri=tel:+1-800-123-4567
AAAA /query uri=tel:+1-201-555-0123
     200 uri=tel:+1-201-555-0123
AAAA /query uri=tEL:+1;a=%4a-_.!~*'()[]/:&+$;b-9
     200 uri=tEL:+1;a=%4a-_.!~*'()[]/:&+$;b-9
