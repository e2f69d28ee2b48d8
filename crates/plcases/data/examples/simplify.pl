% Simplifies expressions: what does not depend on a variable is evaluated, and what adds or multiplies nothing goes.
simplify(E, E) :- atomic(E), !.
simplify(E, S) :- parts(E, F, A, B), simplify(A, X), simplify(B, Y), parts(G, F, X, Y), rule(G, S), !.

parts(A + B, +, A, B).
parts(A - B, -, A, B).
parts(A * B, *, A, B).

rule(E, N) :- parts(E, _, A, B), integer(A), integer(B), N is E.
rule(0 + X, X).
rule(X + 0, X).
rule(X - 0, X).
rule(X - Y, 0) :- X == Y.
rule(0 * _, 0).
rule(_ * 0, 0).
rule(1 * X, X).
rule(X * 1, X).
rule(E, E).

show(E) :- simplify(E, S), writeq(E), write(' = '), writeq(S), nl.

:- initialization((show(x + 0), show(2 * 3 + y), show((x - x) * (4 + z)), show(1 * (a + (3 - 3))), show(2 * (3 + 4)))).
