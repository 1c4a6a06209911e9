%% Three goods that two bidders want: one that takes any of its bids together, and one that takes one at most.
%% The bids with the dummy good 3 are those of the second bidder.

goods 3
bids 6
dummy 1

0	12.5	0	#
1	7.25	1	#
2	21.75	0	1	#
3	4	2	3	#
4	9.5	1	2	3	#
5	11.125	0	2	3	#
