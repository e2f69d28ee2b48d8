% 100,000 transactions of ten updates: five counters that are erased and added again. What a round changes stays changed for the next one.
:- dynamic n/2.
n(a, 0). n(b, 0). n(c, 0). n(d, 0). n(e, 0).

count(K) :- retract(n(K, X)), Y is X + 1, assertz(n(K, Y)).

all :- count(a), count(b), count(c), count(d), count(e).

commits(0) :- !.
commits(N) :- transaction(all), M is N - 1, commits(M).

round(done) :- commits(100000).
