# The number is routed with a carrier's code, which does not take the place of one in the query.
after second-port

AAAA /query uri=tel:+1-202-533-1234
     200 uri=tel:+1-202-533-1234;cic=+10288;npdi;rn=+12025550000
AAAA /query uri=tel:+12025331234;cic=+10333
     200 uri=tel:+12025331234;cic=+10333;npdi;rn=+12025550000
AAAA /query uri=tel:+12025331234;CIC=+10333
     200 uri=tel:+12025331234;CIC=+10333;npdi;rn=+12025550000
