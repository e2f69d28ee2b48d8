% Places queens on a board, one a column, so that none attacks another.
numbers(N, N, [N]) :- !.
numbers(I, N, [I|Is]) :- I < N, J is I + 1, numbers(J, N, Is).

queens(N, Qs) :- numbers(1, N, Ns), place(Ns, [], Qs).

place([], Qs, Qs).
place(Ns, Placed, Qs) :- select(Q, Ns, Rest), safe(Placed, Q, 1), place(Rest, [Q|Placed], Qs).

safe([], _, _).
safe([P|Ps], Q, D) :- Q =\= P + D, Q =\= P - D, E is D + 1, safe(Ps, Q, E).

row(N, Q) :- forall(between(1, N, C), (C =:= Q -> write(' Q') ; write(' .'))), nl.

main :- queens(6, Qs), write(Qs), nl, length(Qs, N), forall(member(Q, Qs), row(N, Q)).
:- initialization(main).
