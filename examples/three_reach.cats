goods 3
bids 4
dummy 0
0	2	0	#
1	2	1	#
2	2	2	#
3	5	0	1	2	#
