% The densest still life of four by four.
% asks: best
% known by: hand (8, a known result)
int: n = 4;
array [0..n + 1, 0..n + 1] of var 0..1: x;
constraint forall (i in 0..n + 1) (x[i, 0] = 0 /\ x[i, n + 1] = 0 /\ x[0, i] = 0 /\ x[n + 1, i] = 0);
constraint forall (i, j in 1..n) (let {var 0..8: near = sum (a, b in -1..1 where a != 0 \/ b != 0) (x[i + a, j + b])} in (x[i, j] = 1 -> near in 2..3) /\ (x[i, j] = 0 -> near != 3));
constraint forall (i in 1..n, j in 1..n - 2) (x[1, j] + x[1, j + 1] + x[1, j + 2] < 3 /\ x[n, j] + x[n, j + 1] + x[n, j + 2] < 3 /\ x[j, 1] + x[j + 1, 1] + x[j + 2, 1] < 3 /\ x[j, n] + x[j + 1, n] + x[j + 2, n] < 3);
solve maximize sum(x);
output ["\(sum(x))"];
