#!/bin/bash
# bash tools/places.sh: the places that docs/DESIGN-PASS.md counts, from the top of the repository. Each line: the point, the command's count, what was counted.
shopt -s globstar
src() { cat crates/*/src/*.rt; }
code() { src | sed 's://.*::'; }   # without comments
say() { printf '%-3s %6s  %s\n' "$1" "$2" "$3"; }
say 1a "$(code | grep -cE 'Refused\(')" 'lines with Refused(..)'
say 1b "$(code | grep -cE '[Rr]efused\([0-9]+')" 'lines that make a refusal of a literal number'
say 1c "$(code | grep -cE '^\s*(let v = .*\.verdict;|Verdict::Refused\(.*\) =>|match v \{)')" 'lines that take a verdict apart or pass a refusal on'
say 1d "$(code | grep -cE '^(pub )?(struct|enum) ')" 'types (by reading: those of the shape of Option or Result, or of a flag beside a value)'
say 2a "$(awk '/^ *(pub )?(extern "C" )?fn /{s="";if(FNR==1)f=FILENAME}{s=s $0 " ";if(/\)( ->.*)?$|\{$/&&s~/fn /){n=s;sub(/.*fn /,"",n);sub(/[(<].*/,"",n);c[n]++;s=""}}END{for(n in c)if(c[n]>1)k++;print k+0}' crates/*/src/*.rt)" 'names of functions that stand twice or more'
say 3a "$(code | grep -cE '^\s*while ')" 'while loops'
say 4a "$(code | grep -oE '\b(monus|least|larger|biased_(byte|word|long)|signed_(byte|word)|byte_of|word_of|sign_parts|power|within|same|wrapping_(add|sub)_u[0-9]+)\(' | wc -l)" 'order, minimum, difference, equality, casts and wrapping by own functions'
say 4b "$(code | grep -cE '^\s*let [a-z_]+ = [a-z_]+\.[a-z_]+;$')" 'copies of one field into a name'
say 4c "$(code | grep -cE '\{ (true|false) \} else|else \{ (true|false) \}')" 'if .. { true } else { .. } and the like'
say 4d "$(code | grep -B3 -E '^(pub )?(struct|enum) ' | grep -cE 'derive\(Clone, Copy\)')" 'types that derive Clone and Copy alone'
say 5a "$(awk '/^ *(pub )?(extern "C" )?fn /{s=""} {s=s $0 " "; if (/\)( ->.*)?$|\{$/ && s ~ /fn /) {a=s; sub(/^[^(]*\(/,"",a); sub(/\).*/,"",a); k=gsub(/: /,"",a); if (k>=5) n++; s=""}} END{print n+0}' crates/*/src/*.rt)" 'functions of five parameters or more'
say 5b "$(awk '/^ *(pub )?(extern "C" )?fn /{s=""} {s=s $0 " "; if (/\)( ->.*)?$|\{$/ && s ~ /fn /) {a=s; sub(/^[^(]*\(/,"",a); sub(/\).*/,"",a); k=gsub(/: /,"",a); if (k>=8) n++; s=""}} END{print n+0}' crates/*/src/*.rt)" 'of eight or more'
say 5c "$(src | grep -cE 'width ≤ 1024')" 'clauses with width ≤ 1024'
say 5d "$(src | grep -cE '\.count ≤ 16')" 'clauses with count ≤ 16'
say 6a "$(code | grep -oE '\bput_[a-z_]+\(|\bput\(' | wc -l)" 'calls and functions that put text into a buffer at a place'
say 6b "$(code | grep -cE 'out: &mut \[u8(; [0-9]+)?\].*-> usize')" 'functions that write into a lent buffer and answer a place (on one line)'
say 6c "$(src | grep -cE '\b(Put|put_end) ')" 'clauses by Put or put_end'
say 6d "$(code | grep -oE '\[0u8; [0-9]+\]' | wc -l)" 'byte buffers of a fixed size'
say 7a "$(code | grep -oE '[a-z_]+: bool\b' | wc -l)" 'flags as parameters and fields'
say 7b "$(code | grep -oE '\b(kind|wanted|given|which): (u32|usize|u8)\b' | wc -l)" 'kinds as numbers'
say 8a "$(cat crates/*/proofs/**/*.antt | wc -l)" 'lines of proofs'
say 8b "$(ls crates/*/proofs/**/Answers.antt | wc -l)" 'functions with answers'
say 8c "$(grep -hE '^use (mathlib|lib|native|mir|borrow|Prim)\.' crates/*/proofs/**/*.antt | wc -l)" 'imports of the older spelling in proofs'
