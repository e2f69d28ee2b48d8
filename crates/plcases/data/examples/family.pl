% Facts, rules and a search that backtracks.
parent(tom, bob).
parent(bob, ann).
parent(bob, pat).
grandparent(X, Z) :- parent(X, Y), parent(Y, Z).
main :- grandparent(tom, pat), write(grandparent(tom, pat)), nl.
:- initialization(main).
