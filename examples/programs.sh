#!/bin/sh
# The programs of README.md, which quotes these lines; they are run in the top folder. `./test` compares what they print with programs.out.
mkdir -p target
printf '\1\14\52\0\4\0' | crates/generate/out/generate >target/recording      # format 1, 12 bits, from line 42 on, 4 spans
crates/list_spans/out/list_spans <target/recording                            # the place and the line of each span
printf '\1\10\0\10\3\10' | crates/list_repairs/out/list_repairs               # timing words: repair, distance, wrong bit
printf '\1\14\0\0\1\0' | crates/generate/out/generate 2>&1                    # there is no line 0
