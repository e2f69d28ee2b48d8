% Symbolic derivation: many clauses, told apart by their first argument.
d(U+V, X, DU+DV) :- !, d(U, X, DU), d(V, X, DV).
d(U-V, X, DU-DV) :- !, d(U, X, DU), d(V, X, DV).
d(U*V, X, DU*V+U*DV) :- !, d(U, X, DU), d(V, X, DV).
d(U/V, X, (DU*V-U*DV)/(V^2)) :- !, d(U, X, DU), d(V, X, DV).
d(U^N, X, DU*N*(U^(N-1))) :- !, d(U, X, DU).
d(-U, X, -DU) :- !, d(U, X, DU).
d(exp(U), X, exp(U)*DU) :- !, d(U, X, DU).
d(log(U), X, DU/U) :- !, d(U, X, DU).
d(X, X, 1) :- !.
d(_, _, 0).

ops(D) :- d((x+1)*((x^2+2)*(x^3+3)), x, D).
divide(D) :- d(((((((((x/x)/x)/x)/x)/x)/x)/x)/x)/x, x, D).
log(D) :- d(log(log(log(log(log(log(log(log(log(log(x)))))))))), x, D).
times(D) :- d(((((((((x*x)*x)*x)*x)*x)*x)*x)*x)*x, x, D).

round(D) :- ops(D), divide(_), log(_), times(_).
