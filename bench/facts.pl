% 100,000 facts f(K, V) that are added one at a time; with each of them another one is looked up by its first argument, and every tenth is
% erased again. All are erased at the end of a round.
:- dynamic f/2.

fill(100000) :- !.
fill(K) :- V is K mod 1000, assertz(f(K, V)), look(K), drop(K), J is K + 1, fill(J).

look(K) :- I is K // 3, f(I, _), !.
look(_).

drop(K) :- 0 is K mod 10, retract(f(K, _)), !.
drop(_).

round(done) :- fill(0), retractall(f(_, _)).
