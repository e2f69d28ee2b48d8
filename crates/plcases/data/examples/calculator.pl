% Reads sums and products from a text, which is a list of codes, and evaluates them. Each predicate takes a list and
% leaves what stands behind the part that it has read.
expression(E, S, T) :- product(A, S, S1), sums(A, E, S1, T).
sums(A, E, [0'+|S], T) :- product(B, S, S1), sums(A + B, E, S1, T).
sums(A, E, [0'-|S], T) :- product(B, S, S1), sums(A - B, E, S1, T).
sums(E, E, S, S).

product(E, S, T) :- factor(A, S, S1), products(A, E, S1, T).
products(A, E, [0'*|S], T) :- factor(B, S, S1), products(A * B, E, S1, T).
products(E, E, S, S).

factor(E, [0'(|S], T) :- expression(E, S, [0')|T]).
factor(N, S, T) :- digit(D, S, S1), number_from(D, N, S1, T).
number_from(A, N, S, T) :- digit(D, S, S1), !, B is 10 * A + D, number_from(B, N, S1, T).
number_from(N, N, S, S).
digit(D, [C|S], S) :- C >= 0'0, C =< 0'9, D is C - 0'0.

show(Text) :- expression(E, Text, []), !, V is E, write(E = V), nl.
show(_) :- write('no expression'), nl.

:- initialization((show("1+2*3"), show("(1+2)*3"), show("100-20-3"), show("2*(3+4)*5"), show("1+"))).
