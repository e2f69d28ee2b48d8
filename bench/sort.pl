% 100,000 numbers in no order, made and sorted.
numbers(0, _, []) :- !.
numbers(N, X, [X|Xs]) :- Y is (X * 1103515245 + 12345) mod 2147483648, M is N - 1, numbers(M, Y, Xs).

round(Least) :- numbers(100000, 42, Xs), msort(Xs, [Least|_]).
