% DONALD and GERALD make ROBERT.
% asks: all
% known by: hand (one, a known result)
include "globals.mzn";
var 1..9: D;
var 0..9: O;
var 0..9: N;
var 0..9: A;
var 0..9: L;
var 1..9: G;
var 0..9: E;
var 1..9: R;
var 0..9: B;
var 0..9: T;
constraint all_different([D, O, N, A, L, G, E, R, B, T]);
constraint 100000 * D + 10000 * O + 1000 * N + 100 * A + 10 * L + D + 100000 * G + 10000 * E + 1000 * R + 100 * A + 10 * L + D = 100000 * R + 10000 * O + 1000 * B + 100 * E + 10 * R + T;
solve satisfy;
output ["\(D)\(O)\(N)\(A)\(L)\(D)"];
