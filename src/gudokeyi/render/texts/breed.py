"""The names of measures of a breed, why one has no value, what each means, and the field's rules of thumb."""
from __future__ import annotations

from gudokeyi.genetics.measures import Lack, Name

NAMES: dict[Name, str] = {
    Name.ANIMALS: "Animals",
    Name.INBRED_ANIMALS: "Inbred animals",
    Name.MEAN_INBREEDING: "Mean inbreeding",
    Name.MEAN_KINSHIP: "Mean kinship",
    Name.FOUNDERS: "Founders",
    Name.EFFECTIVE_FOUNDERS: "Effective number of founders",
    Name.EFFECTIVE_ANCESTORS: "Effective number of ancestors",
    Name.EFFECTIVE_ANCESTORS_LEAST: "… at least",
    Name.EFFECTIVE_ANCESTORS_GREATEST: "… at most",
    Name.FOUNDER_GENOME_EQUIVALENTS: "Founder genome equivalents",
    Name.EQUIVALENT_GENERATIONS: "Equivalent complete generations",
    Name.FULLY_TRACED: "Full generations",
    Name.MAXIMUM_GENERATIONS: "Greatest generation",
    Name.MACCLUER_INDEX: "MacCluer's index",
    Name.GENERATION_INTERVAL: "Generation interval",
    Name.GENERATION_INTERVAL_SIRE_TO_SON: "… sire to son",
    Name.GENERATION_INTERVAL_SIRE_TO_DAUGHTER: "… sire to daughter",
    Name.GENERATION_INTERVAL_DAM_TO_SON: "… dam to son",
    Name.GENERATION_INTERVAL_DAM_TO_DAUGHTER: "… dam to daughter",
    Name.RATE_OF_INBREEDING: "Rate of inbreeding a generation",
    Name.EFFECTIVE_SIZE: "Effective population size",
    Name.EFFECTIVE_SIZE_STANDARD_ERROR: "… its standard error",
    Name.RATE_OF_INBREEDING_A_YEAR: "Rate of inbreeding a year",
    Name.RATE_OF_INBREEDING_BY_YEARS: "Rate a generation, from birth years",
    Name.EFFECTIVE_SIZE_BY_YEARS: "Effective size, from birth years",
}
LACKS: dict[Lack, str] = {
    Lack.NO_PATH: "no pair with known birth days",
    Lack.NOT_ALL_PATHS: "not each of the four paths has a pair with known birth days",
    Lack.ONE_GENERATION: "no animal has more than one equivalent generation",
    Lack.ONE_ANIMAL: "only one animal has more than one equivalent generation",
    Lack.ONE_YEAR: "the animals weren't born in two known years",
    Lack.NO_RISE: "inbreeding doesn't rise",
    Lack.NOT_ALL_FOUND: "more than 5,000 animals: it lies between the bounds below",
}
MEANINGS: dict[Name, str] = {
    Name.ANIMALS: "The animals that the measures speak of.",
    Name.INBRED_ANIMALS: "Those whose known parents are related.",
    Name.MEAN_INBREEDING: "The chance that both genes of an animal come from one gene of an ancestor (Wright 1922).",
    Name.MEAN_KINSHIP: (
        "The same for two genes of any two animals, each animal with itself too: the inbreeding of offspring if all "
        "were mated at random (Ballou and Lacy 1995)."
    ),
    Name.FOUNDERS: "Animals without known parents whose genes are there. One unknown parent counts as a founder of its own.",
    Name.EFFECTIVE_FOUNDERS: "So many founders with equal contributions would give the same diversity (Lacy 1989).",
    Name.EFFECTIVE_ANCESTORS: (
        "The same of ancestors, founders or not, by what each adds beyond those before it: lower where few animals "
        "were used much (Boichard, Maignel and Verrier 1997). Ties go by age."
    ),
    Name.EFFECTIVE_ANCESTORS_LEAST: "The lower bound, where the animals are more than 5,000.",
    Name.EFFECTIVE_ANCESTORS_GREATEST: "The upper bound.",
    Name.FOUNDER_GENOME_EQUIVALENTS: (
        "So many founders that lost none of their genes would give the same diversity: one half by mean kinship (Lacy "
        "1989; Caballero and Toro 2000)."
    ),
    Name.EQUIVALENT_GENERATIONS: "The known ancestors, each counted as its part of a complete generation (Maignel, Boichard and Verrier 1996).",
    Name.FULLY_TRACED: "Generations back in which every ancestor is known.",
    Name.MAXIMUM_GENERATIONS: "Generations back in which any ancestor is known.",
    Name.MACCLUER_INDEX: (
        "How complete the pedigree is over five generations, from 0 to 1; a side that isn't known counts heavily "
        "(MacCluer et al. 1983)."
    ),
    Name.GENERATION_INTERVAL: (
        "Parents' age, in years, at the birth of offspring that have offspring themselves: the mean of four paths "
        "(James 1977)."
    ),
    Name.GENERATION_INTERVAL_SIRE_TO_SON: "Sires' age at the birth of sons that have offspring.",
    Name.GENERATION_INTERVAL_SIRE_TO_DAUGHTER: "Sires' age at the birth of daughters that have offspring.",
    Name.GENERATION_INTERVAL_DAM_TO_SON: "Dams' age at the birth of sons that have offspring.",
    Name.GENERATION_INTERVAL_DAM_TO_DAUGHTER: "Dams' age at the birth of daughters that have offspring.",
    Name.RATE_OF_INBREEDING: (
        "The mean of each animal's increase a generation, by its equivalent generations (Gutiérrez, Cervantes and "
        "Goyache 2009)."
    ),
    Name.EFFECTIVE_SIZE: "An ideal population of so many animals would become inbred as fast.",
    Name.EFFECTIVE_SIZE_STANDARD_ERROR: "How far the effective size may be off, by how much the animals' increases differ.",
    Name.RATE_OF_INBREEDING_A_YEAR: "From the regression of the logarithm of 1 - F on birth years (Pérez-Enciso 1995).",
    Name.RATE_OF_INBREEDING_BY_YEARS: "The rate a year over a generation interval.",
    Name.EFFECTIVE_SIZE_BY_YEARS: "The effective size that goes with that rate.",
}
# what the field compares a measure with, and who says so
RULES: dict[Name, str] = {
    Name.MEAN_INBREEDING: (
        "For comparison: offspring of cousins have 6.25%, of half sibs 12.5%, of full sibs 25% (Wright 1922)."
    ),
    Name.EFFECTIVE_FOUNDERS: "As many as the founders, where all were used alike (Lacy 1989).",
    Name.EFFECTIVE_ANCESTORS: (
        "As many as the effective founders, where the breed was never small (Boichard, Maignel and Verrier 1997)."
    ),
    Name.FOUNDER_GENOME_EQUIVALENTS: "Fewer than the effective founders by what chance lost (Lacy 1989).",
    Name.RATE_OF_INBREEDING: "At most 1% a generation (FAO 2013).",
    Name.RATE_OF_INBREEDING_BY_YEARS: "At most 1% a generation (FAO 2013).",
    Name.EFFECTIVE_SIZE: "At least 50 (FAO 2013); 500 to keep adapting (Franklin 1980).",
    Name.EFFECTIVE_SIZE_BY_YEARS: "At least 50 (FAO 2013); 500 to keep adapting (Franklin 1980).",
}
