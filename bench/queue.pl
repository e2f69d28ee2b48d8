% A queue of 10,000 facts, from whose front one is taken and put back behind the others, 1,000 times a round. What a round changes stays
% changed for the next one.
:- dynamic q/1.

before(ready) :- fill(0).

fill(10000) :- !.
fill(K) :- assertz(q(K)), J is K + 1, fill(J).

turn(0) :- !.
turn(N) :- retract(q(X)), !, assertz(q(X)), M is N - 1, turn(M).

round(ready, done) :- turn(1000).
