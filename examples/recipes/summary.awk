# The mean coefficient, and how many animals are inbred: awk -f summary.awk LIST
# LIST is what `herdbook inbreeding < book/commands.csv` writes.
BEGIN { FS = "," }
{ sum += $3; if ($2 != "0") inbred++ }
END { printf "%d animals, %d inbred, mean %.2f %%\n", NR, inbred, NR ? sum / NR : 0 }
