% A ball that passes ten catchers to the one that takes it.
deep(o) :- throw(ball(_)).
deep(s(N)) :- catch(deep(N), other, true).

round(B) :- catch(deep(s(s(s(s(s(s(s(s(s(s(o))))))))))), ball(B), true).
