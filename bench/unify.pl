% Unification of two lists of ten elements with variables on both sides.
sides([f(A1,B1),f(A2,B2),f(A3,B3),f(A4,B4),f(A5,B5),f(A6,B6),f(A7,B7),f(A8,B8),f(A9,B9),f(A10,B10)],
      [f(g(B1,a),h),f(g(B2,a),h),f(g(B3,a),h),f(g(B4,a),h),f(g(B5,a),h),f(g(B6,a),h),f(g(B7,a),h),f(g(B8,a),h),f(g(B9,a),h),f(g(B10,a),h)]).

round(X) :- sides(X, Y), X = Y.
