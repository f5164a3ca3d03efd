% Fourteen numbers in three boxes without a sum in a box: none.
% asks: none
% known by: hand (thirteen are the most, a known result)
array [1..14] of var 1..3: box;
constraint forall (i, j in 1..14 where i <= j /\ i + j <= 14) (not (box[i] = box[j] /\ box[j] = box[i + j]));
solve satisfy;
