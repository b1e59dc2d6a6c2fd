What geoarrow_check is to print for its own files, computed from docs/FORMAT.md by a script that knows no code of ours

  $ python3 ../bench/reports --check
  104 lines, 0 differ
