% Five pigeons in four holes, said of each two.
% asks: none
% known by: hand
array [1..5] of var 1..4: hole;
constraint forall (i, j in 1..5 where i < j) (hole[i] != hole[j]);
solve satisfy;
