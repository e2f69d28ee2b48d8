% The first way to put eight queens on a board, on Peano numbers.
queens(Qs) :- rows(Ns), place(Ns, [], Qs).

rows([o, s(o), s(s(o)), s(s(s(o))), s(s(s(s(o)))), s(s(s(s(s(o))))), s(s(s(s(s(s(o)))))), s(s(s(s(s(s(s(o)))))))]).

% The rows that are left, those of the columns behind, the nearest first, and the whole.
place([], Qs, Qs).
place([N|Ns], Safe, Qs) :- pick(Q, [N|Ns], Rest), free(Safe, Q, s(o)), place(Rest, [Q|Safe], Qs).

pick(X, [X|Xs], Xs).
pick(X, [Y|Xs], [Y|Ys]) :- pick(X, Xs, Ys).

% No queen of a column so far away stands on a diagonal of the row.
free([], _, _).
free([P|Ps], Q, D) :- \+ sum(P, D, Q), \+ sum(Q, D, P), free(Ps, Q, s(D)).

sum(o, Y, Y).
sum(s(X), Y, s(Z)) :- sum(X, Y, Z).

round(Qs) :- queens(Qs).
