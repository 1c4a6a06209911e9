%% Four goods and three bidders. The first takes any of its bids together: its small bids outbid its large one.
%% Each of the others takes one bid at most, and has one.

goods 4
bids 6
dummy 2

0	6.5	0	1	#
1	4.25	2	#
2	3	3	#
3	13	0	1	2	3	#
4	5	1	2	4	#
5	7.5	1	2	3	5	#
