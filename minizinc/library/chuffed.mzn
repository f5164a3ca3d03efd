% Found where a model includes it: the annotations that it declares are followed as far as the search knows them.
annotation priority_search(array [int] of var int: x, array [int] of ann: searches, ann: select, ann: explore);
annotation priority_search(array [int] of var int: x, array [int] of ann: searches, ann: select);
annotation smallest_largest;
annotation largest_smallest;
