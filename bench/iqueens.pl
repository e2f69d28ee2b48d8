% Eight queens on a board, with integers.
range(N, N, [N]) :- !.
range(M, N, [M|Ns]) :- M < N, M1 is M + 1, range(M1, N, Ns).
pick([X|Xs], Xs, X).
pick([Y|Ys], [Y|Zs], X) :- pick(Ys, Zs, X).
attack(X, Xs) :- attack(X, 1, Xs).
attack(X, N, [Y|_]) :- X is Y + N.
attack(X, N, [Y|_]) :- X is Y - N.
attack(X, N, [_|Ys]) :- N1 is N + 1, attack(X, N1, Ys).
queens([], Qs, Qs).
queens(Unplaced, Safe, Qs) :- pick(Unplaced, Rest, Q), \+ attack(Q, Safe), queens(Rest, [Q|Safe], Qs).
round(Qs) :- range(1, 8, Ns), queens(Ns, [], Qs).
