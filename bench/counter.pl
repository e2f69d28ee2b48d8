% A counter that is erased and added again, 1,000 times a round. What a round changes stays changed for the next one.
:- dynamic n/1.
n(0).

tick(0) :- !.
tick(K) :- retract(n(X)), Y is X + 1, assertz(n(Y)), J is K - 1, tick(J).

round(done) :- tick(1000).
