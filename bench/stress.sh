# Runs many jobs of mixed votes, and ends at the first run that doesn't end as its votes say.

build benches
crates/benches/out/benches stress
