% A loop that counts down and adds up, 1,000 times round.
count(0, Sum, Sum) :- !.
count(N, Sum, All) :- More is Sum + N, Next is N - 1, count(Next, More, All).
round(Sum) :- count(1000, 0, Sum).
