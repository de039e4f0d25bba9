"""What is found of a sheet's file, columns and cells: each kind as data, and in words."""
