% A loop that counts up to 10,000,000: one round is one loop.
up(N, N) :- !.
up(N, High) :- M is N + 1, up(M, High).
round(10000000) :- up(0, 10000000).
