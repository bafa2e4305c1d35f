#!/usr/bin/env bash
# Asks for the wrong bodies that a user would miss first. Each name of the list is that of an edit in a folder
# must-fail/, or of a refutation, a function of tb_gate_refutations. Says which one is gone, and then ends with status
# 1.
set -euo pipefail
cd "$(dirname "${BASH_SOURCE[0]}")/../.."

names='division_rounds_down comparison_by_wrapped_difference silent_loop_without_end returns_where_source_loops
    counter_kept_in_x_over_chrout returns_kept_on_page_one search_skips_last_entry print_values_all_items_first
    input_drops_rest_of_line interrupt_writes_ignored compile_answers_too_large run_answers_step_limit poll_only_at_jumps
    start_of_names_dead_bytes quotient_is_always_zero temporary_in_rom_memory prologue_trusts_memory_or_decimal
    folding_drops_division_by_zero duplicate_keeps_first_line assignment_refused_because_of_if branch_range_off_by_one
    indirect_jump_crosses_page absolute_listed_as_zero_page sends_without_service lower_gives_empty_lists
    back_restores_registers_alone store_one_line_late poll_inside_if'
bad=0
for name in $names; do
    compgen -G "crates/*/must-fail/$name.edit" >/dev/null || grep -rqE "^pub fn $name\(\)" crates/tb_gate_refutations/src ||
        { echo "named_edits: $name is gone: write it anew, as an edit of must-fail/ or as a refutation" >&2; bad=1; }
done
exit "$bad"
