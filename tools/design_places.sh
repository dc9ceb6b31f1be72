#!/usr/bin/env bash
# Counts the lines in which an older form of code may stand, by one command for each form; docs/DESIGN-PASS.md has the numbers.
# Run at the top of a checkout; `design_places.sh -v KEY` prints the lines of one form.
cd "$(dirname "$0")/.." || exit 1
mapfile -t files < <(find crates -name '*.rt' -path '*/src/*' -not -path '*/out/*' | sort)

forms() {
    cat <<'LIST'
1a (u8|usize), (u8, )?usize(, usize)?\)( \{|;|$)
1b rule_asked\(|fn of_kind|Choice::|^ +[123] => |=> [123],
1c unwrap_or\((0|1|true|false|Mark::)|\{ 0 \}|^ +0$|holder == 0
1d None => (Err|false|0|Section)|Err\(_\) =>|Ok\(_\) =>
2a fn (request|step|leave)(_round)?\(&mut
3a for [a-z_]+ in [0-9a-z_]+\.\.[^=]
3b (before|index|i) \+ 1
3c \[(before|index|at|i)( \+ [0-9])?\]|\[(before|name) - 1\]
4a \.is\([a-zA-Z]
4b \* 256|/ 256|% 256
4c fn (is|is_asking|is_holding|same_section|same_figures|number|section_word|holder_number|joined|decode_record|encode_mark|of_kind|given|agent_of|load_word|round_of|rounds_of|rule_of|of_read|of_write|of_swap)\b
4d  as (usize|u8|u16|u32|u64|u128)\b
5a ^ +requires
5b lender [a-z]+\.new(\.store)? ≡|ghost_name ≡
5c agents: (usize|u8),? *(cells|$)|cells: usize
6a ^ +(pub(\(crate\))? )?[a-z_]+: \[[A-Za-z0-9_]+; [A-Za-z0-9_]+\],
6b let mut [a-z]+ = \[[^]]*; [A-Z0-9_a-z]+\];
7a match (event|round|self\.rule|rule_asked\(file\)|want)\b
LIST
}

forms | while read -r key form; do
    if [ "${1:-}" = -v ]; then
        [ "$key" != "${2:-}" ] || grep -nE -- "$form" "${files[@]}"
    else
        printf '%-3s %4d  %s\n' "$key" "$(cat "${files[@]}" | grep -cE -- "$form")" "$form"
    fi
done
[ -n "${1:-}" ] || printf '8   %4d  lines in proofs/\n' "$(find crates/*/proofs -name '*.antt' -exec cat {} + | wc -l)"
