% A search with a cut, an error that is caught, and an end of the run with a status of its own.
% It writes red, then caught(type_error(callable,(write(never),1))), and ends with status 3.
colour(green).
colour(red).
colour(blue).
warm(red).
warm(yellow).
first_warm(C) :- colour(C), warm(C), !.
guarded(G) :- catch(G, error(E, _), (writeq(caught(E)), nl)).
main :- first_warm(C), write(C), nl, guarded(call((write(never), 1))), halt(3).
:- initialization(main).
