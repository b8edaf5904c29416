#!/usr/bin/env bash
# Counts in crates/*/src the places that the pages docs/DESIGN-PASS.md speaks of: one heading for each point, then the lines found. Give it the folder of a checkout.
cd "${1:-.}" || exit 1
src=$(find crates/*/src -name '*.rt' | sort)
code() { grep -vE '^[^:]+:[0-9]+: *//' | grep -vE '^[^:]+:[0-9]+:ghost use'; }
echo '1a own enums (those of the shape of Option or Result are to be read out)'
grep -nE '^\s*(pub(\(\w+\))? )?enum ' $src | code
echo '1b a bool as the answer of a function that changes something, an Option of a Fault as a refusal'
grep -zoP '(?s)fn \w+(<[^>]*>)?\([^{;]*?&mut [^{;]*?\)\s*-> bool' $src | tr '\0' '\n' | grep -E 'fn '
grep -nE -- '-> Option<Fault>' $src | code
echo '1c number codes: arms and tests over them'
grep -nE '^\s*([0-9]+|[0-9]+\.\.=[0-9]+)( \| [0-9]+)*( if .*)? => |\b(kind|state|fate|mark|count)\b (==|!=|>|<) [0-9]|\*kind == ' $src | code
echo '1d flags: bool parameters and fields'
grep -nE '\b\w+: bool\b' $src | code
echo '3 loops over a range or by hand'
grep -nE 'for \w+ in [^{]*\.\.|\bwhile |\bloop\b' $src | code
echo '4a fields of newtypes compared, numbers compared'
grep -nE '\.0\b *(==|!=|<=|>=|<|>) *[a-z_.]+\.0\b|number\(\) == ' $src | code
echo '4b conversions, faults and printing by hand'
grep -nE 'fn (number|name|entry_of|is_marked|holds|refuse|refused|fault|power_off)\b|impl fmt::' $src | code
echo '5 clauses that stand in three contracts or more, with how often'
grep -hoE '^\s*(requires|ensures)[^{]*\{ .* \}' $src | sed -E 's/^\s*(requires|ensures)[^{]*\{ //; s/ \}$//; s/\.(old|new|now)\b/.T/g; s/\b(P|Q|C|D)\.(Chip|Disk)\b/C.D/g' | sort | uniq -c | sort -rn | awk '$1>=3'
echo '6 arrays and lent slices of values with a length beside them'
grep -nE ': \[[A-Za-z0-9]+; [0-9A-Z]+\],?$|\(\[u8; [0-9]+\], u16\)|&mut \[(Record|Entry)\]' $src | code
echo '7 enums that switch a step, closures'
grep -nE 'enum (Purpose)|impl Fn|: Fn(Mut|Once)?\(|fn\(' $src | code
