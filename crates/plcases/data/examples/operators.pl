% A text may declare operators; terms are read and written by them from there on.
:- op(700, xfx, ===>).
a ===> b.
rule(X) :- X ===> Y, write(Y), nl.
:- initialization(rule(a)).
