% Found where a model includes it: the annotations that it declares are followed as far as the search knows them.
annotation afc_min;
annotation afc_size_min;
annotation afc_max;
annotation afc_size_max;
annotation activity_min;
annotation activity_size_min;
annotation activity_max;
annotation activity_size_max;
annotation random;
annotation int_assign(array [int] of var int: x, ann: a);
annotation int_default_search(ann: varsel, ann: valsel);
annotation bool_default_search(ann: varsel, ann: valsel);
annotation set_default_search(ann: varsel, ann: valsel);
annotation float_default_search(ann: varsel, ann: valsel);
annotation relax_and_reconstruct(array [int] of var int: x, int: percentage);
annotation relax_and_reconstruct(array [int] of var int: x, int: percentage, array [int] of int: y);
