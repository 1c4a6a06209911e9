%% an OR bidder with a bid that two others reach, and an XOR bidder with a bid that another outbids

goods 2
bids 5
dummy 1

0	3	0	#
1	4	1	#
2	7	0	1	#
3	6	0	1	2	#
4	2	0	1	2	#
