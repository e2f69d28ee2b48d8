% Fibonacci numbers, each of which is worked out once and then kept as a fact.
:- dynamic known/2.

fib(N, F) :- known(N, F), !.
fib(N, F) :- fresh(N, F), asserta(known(N, F)).

fresh(0, 0) :- !.
fresh(1, 1) :- !.
fresh(N, F) :- A is N - 1, B is N - 2, fib(A, X), fib(B, Y), F is X + Y.

show(N) :- fib(N, F), format("fib(~d) = ~d~n", [N, F]).

:- initialization((maplist(show, [10, 50, 90]), findall(N, known(N, _), Kept), length(Kept, Count), format("~d are kept~n", [Count]))).
