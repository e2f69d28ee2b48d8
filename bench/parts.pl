% Each part of two characters of an atom of 32,768 characters, and where one of them stands.
double(0, A, A) :- !.
double(N, A, C) :- atom_concat(A, A, B), M is N - 1, double(M, B, C).

before(A) :- double(12, abcdefgh, A).

pairs(A) :- sub_atom(A, _, 2, _, S), S == none, !.
pairs(_).

round(A, B) :- pairs(A), sub_atom(A, B, 2, 0, gh), !.
