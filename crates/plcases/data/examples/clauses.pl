% A clause that the program adds itself is seen by the next call.
main :- assertz(q(7)), q(X), write(X), nl.
:- initialization(main).
