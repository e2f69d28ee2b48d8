% A ground result that is built bottom up, 2,000 levels deep: each is bound to a variable older than all of it.
up(o, a).
up(s(N), R) :- up(N, A), R = s(A).

add(o, N, N).
add(s(M), N, s(R)) :- add(M, N, R).

twice(N, M) :- add(N, N, M).
before(N) :-
    five(A), twice(A, B), twice(B, C), add(C, A, D),
    twice(D, E), twice(E, F), add(F, D, G), twice(G, H), twice(H, I), twice(I, J), twice(J, N).
five(s(s(s(s(s(o)))))).

round(N, R) :- up(N, R).
