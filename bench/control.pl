% A deterministic loop over catch/3, call/1, negation and if-then-else: 1,000 turns a round.
turns(o).
turns(s(N)) :- catch(g, _, true), call(g), \+ fail, (g -> true ; true), turns(N).
g.

add(o, N, N).
add(s(M), N, s(R)) :- add(M, N, R).

ten(s(s(s(s(s(s(s(s(s(s(o))))))))))).
times(o, _, o).
times(s(M), N, R) :- times(M, N, S), add(N, S, R).
before(N) :- ten(A), times(A, A, B), times(A, B, N).

round(N, N) :- turns(N).
