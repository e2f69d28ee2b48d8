% A planner of blocks that tries 100,000 moves, each in a snapshot that shows what would become of it, and keeps none.
:- dynamic on/2.
on(a, b). on(b, c). on(c, floor). on(d, e). on(e, f). on(f, floor).

wanted(a, floor). wanted(b, a). wanted(c, b). wanted(d, floor). wanted(e, d). wanted(f, floor).

block(0, a). block(1, b). block(2, c). block(3, d). block(4, e). block(5, f). block(6, floor).

% Nothing stands on a block that is moved, nor on the one that it comes to stand on.
free(B) :- \+ on(_, B).
goes_to(floor, _) :- !.
goes_to(P, B) :- P \== B, free(P).

move(B, P) :- free(B), goes_to(P, B), retract(on(B, _)), assertz(on(B, P)).

value(V) :- findall(B, good(B), Bs), count(Bs, 0, V).
good(B) :- wanted(B, P), on(B, P).

count([], N, N).
count([_|Xs], N, All) :- M is N + 1, count(Xs, M, All).

tried(N, V) :- I is N mod 6, J is N // 6 mod 7, block(I, B), block(J, P), snapshot((move(B, P), value(V))), !.
tried(_, 0).

explore(0, Best, Best) :- !.
explore(N, So, Best) :- tried(N, V), More is max(V, So), M is N - 1, explore(M, More, Best).

round(Best) :- explore(100000, 0, Best).
