% Takes terms apart and makes others of them: what stands in a term, a term with its arguments turned round, and its depth.
turned(T, T) :- atomic(T), !.
turned(T, T) :- var(T), !.
turned(T, U) :- T =.. [F|As], maplist(turned, As, Bs), reverse(Bs, Cs), U =.. [F|Cs].

depth(T, 0) :- var(T), !.
depth(T, 0) :- atomic(T), !.
depth(T, D) :- functor(T, _, N), deepest(N, T, 0, E), D is E + 1.
deepest(0, _, D, D) :- !.
deepest(I, T, D, E) :- arg(I, T, A), depth(A, F), G is max(D, F), J is I - 1, deepest(J, T, G, E).

show(T) :-
    copy_term(T, C), turned(C, U), depth(T, D), term_variables(T, Vs), length(Vs, N),
    writeq(T), write(' turned '), writeq(U), write(' depth '), write(D), write(' variables '), writeln(N).

:- initialization((show(f(a, b)), show(f(X, g(_, 1), X)), show([1, 2, 3]), show(a + b * c), show(42), show(_))).
