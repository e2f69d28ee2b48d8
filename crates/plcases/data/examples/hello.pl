% Writes one line.
main :- write(hello), nl.
:- initialization(main).
