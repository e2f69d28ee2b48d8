% A call keeps the clauses that were alive when it began (the logical update view).
% Each answer of p(X) adds a clause and then fails, yet the walk writes 1 and 2 alone;
% the call behind it sees the added ones too, so it writes 1, 2, 3 and 3.
main :- assertz(p(1)), assertz(p(2)), growing, standing.
growing :- p(X), write(X), nl, assertz(p(3)), never(X).
growing.
standing :- p(X), write(X), nl, never(X).
standing.
never(none).
:- initialization(main).
