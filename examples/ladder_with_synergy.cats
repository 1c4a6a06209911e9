%% the bid for both goods offers more than the two bids for one good each
goods 2
bids 4
dummy 1

0	3	0	#
1	4	1	#
2	7.5	0	1	#
3	6	0	1	2	#
