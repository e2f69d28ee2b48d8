% Writing a term: what is written is kept for the report.
term(f(_, 'quoted name', [1, -2, Y|_], "ab", (a :- b, \+ c ; d -> e), 1 - (2 - Y), {z})).

round(T) :- term(T), writeq(T), nl.
