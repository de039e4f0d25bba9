"""From a sheet or a pedigree's file to what it says of animals."""
