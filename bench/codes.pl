% An atom of 8,192 characters: its codes, each of them shifted, and the atom of those. GNU Prolog breaks off at 16,384.
double(0, A, A) :- !.
double(N, A, C) :- atom_concat(A, A, B), M is N - 1, double(M, B, C).

shift([], []).
shift([X|Xs], [Y|Ys]) :- Y is 97 + (X - 96) mod 26, shift(Xs, Ys).

before(A) :- double(10, abcdefgh, A).

round(A, Length) :- atom_codes(A, Xs), shift(Xs, Ys), atom_codes(B, Ys), atom_length(B, Length).
