%% number	price of six significant digits	goods

goods 3
bids 5
dummy 1

0	1.02345e+06	0	#
1	0.0123456	1	#
2	12.5	1	2	3	#
3	100000	0	1	#
4	3.14159e-05	2	#
