% Transactions of ten updates and five look-ups, among 1,000 facts f(K, V): 100 of them a round. What a round changes stays changed for the
% next one.
:- dynamic f/2.

before(1000) :- fill(1000).

fill(0) :- !.
fill(N) :- K is N - 1, assertz(f(K, 0)), fill(K).

% So many facts, whose keys are far from each other, get another value.
change(0, _, _) :- !.
change(N, K, Size) :- retract(f(K, V)), W is V + 1, assertz(f(K, W)), f(K, W), L is (K + 7919) mod Size, M is N - 1, change(M, L, Size).

turns(0, _, _) :- !.
turns(N, K, Size) :- transaction(change(5, K, Size)), L is (K * 31 + 17) mod Size, M is N - 1, turns(M, L, Size).

round(Size, done) :- turns(100, 0, Size).
