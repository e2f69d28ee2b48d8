% Naive reversal of 30 elements: 496 calls of app/3 and nrev/2 a round.
nrev([], []).
nrev([H|T], R) :- nrev(T, S), app(S, [H], R).

app([], L, L).
app([H|T], L, [H|R]) :- app(T, L, R).

thirty([1,2,3,4,5,6,7,8,9,10,11,12,13,14,15,16,17,18,19,20,21,22,23,24,25,26,27,28,29,30]).

round(R) :- thirty(L), nrev(L, R).
