% Who owns the zebra: a search over lists of structures.
houses([h(_,norwegian,_,_,_), _, h(_,_,_,milk,_), _, _]).

right(A, B, [B,A|_]).
right(A, B, [_|T]) :- right(A, B, T).

near(A, B, L) :- right(A, B, L).
near(A, B, L) :- right(B, A, L).

mem(X, [X|_]).
mem(X, [_|T]) :- mem(X, T).

zebra(Owner) :-
    houses(H),
    mem(h(red,english,_,_,_), H),
    mem(h(green,_,_,coffee,_), H),
    mem(h(_,spanish,dog,_,_), H),
    mem(h(_,ukrainian,_,tea,_), H),
    right(h(green,_,_,_,_), h(ivory,_,_,_,_), H),
    mem(h(_,_,snails,_,winston), H),
    mem(h(yellow,_,_,_,kools), H),
    near(h(_,_,_,_,chesterfield), h(_,_,fox,_,_), H),
    near(h(_,_,_,_,kools), h(_,_,horse,_,_), H),
    mem(h(_,_,_,orange,lucky), H),
    mem(h(_,japanese,_,_,parliament), H),
    near(h(_,norwegian,_,_,_), h(blue,_,_,_,_), H),
    mem(h(_,Owner,zebra,_,_), H).

round(Owner) :- zebra(Owner).
