% Transactions that stand in each other, 1,000 deep: each adds a fact, and looks at it once the inner ones have ended. All are erased at
% the end of a round.
:- dynamic p/1.

down(0) :- !.
down(N) :- M is N - 1, transaction((assertz(p(N)), down(M))), p(N).

round(done) :- down(1000), retractall(p(_)).
