% Takeuchi's function on Peano numbers. No number falls below the least of the three but by one.
tak(X, Y, Z, A) :- le(X, Y), !, A = Z.
tak(X, Y, Z, A) :-
    X = s(U), Y = s(V), Z = s(W),
    tak(U, Y, Z, A1), tak(V, Z, X, A2), tak(W, X, Y, A3),
    tak(A1, A2, A3, A).

le(o, _).
le(s(X), s(Y)) :- le(X, Y).

seven(s(s(s(s(s(s(s(o)))))))).
five(s(s(s(s(s(o)))))).
three(s(s(s(o)))).

round(A) :- seven(X), five(Y), three(Z), tak(X, Y, Z, A).
