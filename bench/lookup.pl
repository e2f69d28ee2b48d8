% One hundred look-ups among many facts f(K, V), by the first argument. The facts stand behind this text.
look([]).
look([K|Ks]) :- f(K, _), look(Ks).

round(K) :- keys(K), look(K).
