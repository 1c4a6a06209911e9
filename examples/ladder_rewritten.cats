% the same auction, written in another way
goods 2
bids 6
dummy 3
5	0	0	4	#
0	6.00	1	0	3	#
1	4	1	#
2	3.0	0	#
3	1	0	#
4	6	0	1	3	#
