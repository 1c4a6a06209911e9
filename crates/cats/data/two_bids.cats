%% a comment

goods 3
bids 2
dummy 1

0	20	0	2	3	#
1	7	1	#
