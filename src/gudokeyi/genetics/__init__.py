"""Pedigrees as arrays, relationships, measures of a breed, and plans of matings."""
