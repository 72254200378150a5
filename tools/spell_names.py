#!/usr/bin/env python3
"""Spells the names of this repository's definitions and lemmas as today's Rattle does: words in snake case.

usage: python3 tools/spell_names.py        at the top of the repository, once, right after the toolchain's own port.py

A dash stays where it joins the names of two functions, as in length-ring. Functions of src/ and the names that Rattle makes keep theirs.
A name of more than one meaning has a row for a crate, which goes before the general one.
"""

import os
import re
import sys

WORD = re.compile(r'[^\s(){}.;,@"«»]+')

# In one crate alone: its name, the old name, the new one.
OWN = """
history live-cells live_cells
session live-cells live_cells
trellis fromOf best_from
trellis total_of best_total
"""

NAMES = """
MOST-ENTRY MOST_ENTRY
above-one above_one
above-used above_used
accepted-told accepted_told
add-less add_less
add-less-pair add_less_pair
addPair add_pair
added-append added_append
addedTo added_to
advance-right advance_right
advanced-right advanced_right
afterAll after_all
all-decided all_decided
all-linked all_linked
all-stretches all_stretches
alone-is alone_is
alone-path alone_path
alone-valid alone_valid
any-from any_from
any-to any_to
anyOn any_on
appended-capacity appended_capacity
appended-fits appended_fits
appended-length appended_length
appended-more appended_more
appended-none appended_none
ask-state ask_state
at-end at_end
at-number at_number
at-record at_record
bad-2 bad_2
bad-3 bad_3
bare-cells bare_cells
before-fork before_fork
begins-all begins_all
begins-both begins_both
begins-fits begins_fits
begins-trans begins_trans
behind-number behind_number
behind-one behind_one
behind-written behind_written
below-128 below_128
best-last best_last
better-room better_room
beyond-from beyond_from
beyond-more beyond_more
blank-tips blank_tips
breach-first breach_first
breach-graded breach_graded
breach-strict breach_strict
breachCalls breach_calls
by-second by_second
can-take can_take
carried-way carried_way_lem
carriedCost carried_cost
carriedWay carried_way
cell-tip cell_tip
cells-distinct cells_distinct
cells-has cells_has
cellsFrom cells_from
chargeAt charge_at
charges-many charges_many
cheapest-is cheapest_is
checksAt checks_at
chosen-cheapest chosen_cheapest
chosen-from chosen_from
chosen-some chosen_some
chosen-to chosen_to
clash-2 clash_2
clash-3 clash_3
closeChecks close_checks
compare-pair compare_pair
cost-push cost_push
costOf cost_of
counted-one counted_one
cut-0 cut_0
cut-1 cut_1
cut-2 cut_2
cut-head cut_head
cut-number cut_number
cut-readings cut_readings
d-is d_is
decided-most decided_most
decided-now decided_now
decided-taken decided_taken
decided-told decided_told
differ-more differ_more
differ-rest differ_rest
drawn-told drawn_told
empty-ended empty_ended
empty-graded empty_graded
empty-strict empty_strict
emptyCalls empty_calls
end-at end_at
end-blocked end_blocked
end-bytes end_bytes
end-not end_not
ended-none ended_none
ended-token ended_token
ended-valid ended_valid
ends-inside ends_inside
ends-outside ends_outside
even-decided even_decided
even-path even_path
every-reading every_reading
exists-of exists_of
fault-at fault_at
few-modes few_modes
few-values few_values
filled-all filled_all
finished-none finished_none
finished-of finished_of
first-advanced first_advanced
first-chosen first_chosen
first-is first_is
first-left first_left
first-marked first_marked
first-mode first_mode
first-only first_only
first-reached first_reached
first-right first_right
first-tells first_tells
first-themselves first_themselves
found-both found_both
found-end found_end
found-log found_log
found-new found_new
found-old found_old
found-readings found_readings
found-root found_root
free-tips free_tips
fresh-stands fresh_stands
fresh-valid fresh_valid
from-none from_none
from-room from_room
fromAt from_at
fromOf from_of
front-differs front_differs
goOn go_on
goes-no-further goes_no_further
gone-kept gone_kept
groups-2 groups_2
groups-3 groups_3
groups-join groups_join
groups-last groups_last
groups-more groups_more
groupsWithin groups_within
grown-all grown_all
grown-at grown_at
grown-equal grown_equal
grown-first grown_first
grown-more grown_more
grown-none grown_none
grown-of grown_of
grown-other grown_other
grown-path grown_path
handed-on handed_on
head-not-cut head_not_cut
heirs-left heirs_left
held-bound held_bound
held-clear held_clear
held-put held_put
held-set held_set
held-some held_some
here-is here_is
i-off i_off
idle-cells idle_cells
idleAfter idle_after
in-append in_append
in-front in_front
in-order-map in_order_map
in-order-passed in_order_passed
in-subst in_subst
inHand in_hand
inUse in_use
insideAfter inside_after
irreflexive-pair irreflexive_pair
is-best is_best
is-cell is_cell
is-decided is_decided
is-there is_there
isH is_h
isK is_k
isN is_n
isRoot is_root
isZ is_z
join-other join_other
join-owner join_owner
join-shape join_shape
join-used join_used
join-uses join_uses
kept-is kept_is
kept-kept kept_kept
kept-place kept_place
last-group last_group
last-is last_is
last-mode last_mode
last-push last_push
last-room last_room
later-many later_many
later-push later_push
lawful-more lawful_more
lawful-next lawful_next
layer-distinct layer_distinct
layer-has layer_has
layer-in layer_in
least-of least_of_lem
least-room least_room
leastOf least_of
left-b left_b
left-p left_p
length-within length_within
less-m less_m
less-not less_not
less-p less_p
linked-heirs linked_heirs
linked-here linked_here
linked-joined linked_joined
linked-other linked_other
linked-refs linked_refs
linked-same linked_same
live-cells live_cells_lem
live-told live_told
liveCells live_cells
log-bytes log_bytes
log-not log_not
log-number log_number
longer-one longer_one
longest-behind longest_behind
low-gone low_gone
low-heirs low_heirs
low-here low_here
low-other low_other
lower-asym lower_asym
lower-ends lower_ends
lower-here lower_here
lower-push lower_push
many-now many_now
may-grow may_grow
meet-longest meet_longest
meetNext meet_next
modes-is modes_is
modesOf modes_of
more-arises more_arises
more-decided more_decided
more-p more_p
moved-gone moved_gone
moved-heirs moved_heirs
moved-refs moved_refs
n-few n_few
new-used new_used
newLayer new_layer
newMode new_mode
newParent new_parent
next-advanced next_advanced
next-at next_at
next-backed next_backed
next-found next_found
next-goes next_goes
next-handed-on next_handed_on
next-marked next_marked
next-refused next_refused
next-shorter next_shorter
next-valid next_valid
nil-begins nil_begins
no-file no_file
no-live no_live
no-tip no_tip
no-tips no_tips
none-at none_at
none-decided none_decided
none-live none_live
none-next none_next
none-taken none_taken
none-tips none_tips
none-to none_to
not-allowed not_allowed
not-below not_below
not-cut not_cut
not-default not_default
not-empty not_empty
not-whole not_whole
not-zero not_zero
now-linked now_linked
now-used now_used
number-found number_found
number-here number_here
number-refused number_refused
off-new off_new
old-path old_path
oldTips old_tips
oldest-by oldest_by
on-path lies_on_path
on-place on_place
one-arises one_arises
one-backed one_backed
one-file one_file
one-head one_head
one-record one_record
one-step one_step
one-within one_within
only-file only_file
only-records only_records
onward-more onward_more
onward-none onward_none
onward-within onward_within
open-push open_push
open-token open_token
orEmpty or_empty
others-m others_m
others-p others_p
out-is out_is
overwritten-more overwritten_more
overwritten-one overwritten_one
overwritten-part overwritten_part
own-p own_p
owner-oldest owner_oldest
owner-parent owner_parent
owner-second owner_second
owner-third owner_third
owner-used owner_used
p-any p_any
p-apart p_apart
p-below p_below
p-beyond p_beyond
p-count p_count
p-each p_each
p-empty p_empty
p-ends p_ends
p-few p_few
p-fits p_fits
p-heir p_heir
p-heirs p_heirs
p-high p_high
p-holds p_holds
p-is p_is
p-live p_live
p-lone p_lone
p-low p_low
p-many p_many
p-newest p_newest
p-none p_none
p-off p_off
p-old p_old
p-oldest p_oldest
p-other p_other
p-real p_real
p-refs p_refs
p-shape p_shape
p-size p_size
p-small p_small
p-span p_span
p-stack p_stack
p-step p_step
p-tips p_tips
p-up p_up
p-used p_used
p-wide p_wide
parent-used parent_used
passageOver passage_over
path-at path_at
path-ended path_ended
path-frame path_frame
path-length path_length
path-read path_read
path-root path_root
pathOf path_of
pathTo path_to
pathTo-ends path_to_ends
pathTo-length path_to_length
pathTo-none path_to_none
paths-more paths_more
paths-on paths_on
payload-none payload_none
place-put place_put
place-take place_take
place-within place_within
placed-front placed_front
placed-last placed_last
plus-here plus_here
plus-other plus_other
present-is present_is
put-before put_before
put-group put_group
put-here put_here
put-past put_past
put-size put_size
range-refused range_refused
ranged-writable ranged_writable
read-1 read_1
read-2 read_2
read-3 read_3
readingChecks reading_checks
readings-bytes readings_bytes
readings-not readings_not
readings-number readings_number
readings-refused readings_refused
real-set real_set
recount-heirs recount_heirs
recount-here recount_here
recount-other recount_other
recount-refs recount_refs
recount-same recount_same
refused-stays refused_stays
refused-stuck refused_stuck
removed-more removed_more
removed-none removed_none
rest-differ rest_differ
rest-differs rest_differs
rest-is rest_is
rest-now rest_now
right-b right_b
right-p right_p
ring-first ring_first
ring-home ring_home
ring-more ring_more
ring-on ring_on
ring-put ring_put
ring-rest ring_rest
ring-step ring_step
ring-take ring_take
room-below room_below
room-left room_left
room-less room_less
room-live room_live
root-gone root_gone
root-joined root_joined
root-share root_share
same-charge same_charge
same-choice same_choice
same-cons same_cons
same-cost same_cost
same-groups same_groups
same-mode same_mode
same-pair same_pair
same-path same_path
same-same same_same
same-segment same_segment
same-side same_side
same-stretch same_stretch
saw-five saw_five
saw-four saw_four
saw-one saw_one
saw-path saw_path
saw-three saw_three
saw-two saw_two
sawCalls saw_calls
segments-equal segments_equal
segments-first segments_first
segments-none segments_none
segments-other segments_other
settle-end settle_end
settle-on settle_on
settled-now settled_now
settled-of settled_of
shape-kept shape_kept
shape-prop shape_prop
share-bound share_bound
share-first share_first
share-mine share_mine
share-none share_none
share-not share_not
share-rest share_rest
share-same share_same
share-top share_top
share-zero share_zero
shed-all shed_all
shed-by shed_by
shed-clear shed_clear
shed-on shed_on
shed-skip shed_skip
shed-tips shed_tips
shortest-form shortest_form
shown-live shown_live
shown-only shown_only
shown-zero shows_zero
shownZero shown_zero
slot-free slot_free
some-from some_from
some-mark some_mark
some-mode some_mode
some-parts some_parts
some-tip some_tip
some-value some_value
split-then split_then
spots-all spots_all
spots-many spots_many
spots-once spots_once
spots-only spots_only
sprout-none sprout_none
stack-less stack_less
stack-more stack_more
stack-prop stack_prop
stands-more stands_more
start-lt start_lt
start-within start_within
startChecks start_checks
stay-kept stay_kept
still-linked still_linked
still-shared still_shared
sum-defined sum_defined
survivor-is survivor_is
survivors-right survivors_right
take-first take_first
taken-known taken_known
tally-bound tally_bound
tally-change tally_change
tally-ge tally_ge
tally-none tally_none
tally-only tally_only
tally-pair tally_pair
tally-same tally_same
tally-some tally_some
tally-two tally_two
then-then then_then
tip-below tip_below
tip-cell tip_cell
tip-mode tip_mode
tip-modes tip_modes
tip-of has_tip
tip-undecided tip_undecided
tip-used tip_used
tipAt tip_at
tips-more tips_more
tips-now tips_now
tips-prop tips_prop
tips-set tips_set
tips-wider tips_wider
tipsOf tips_of
tipsOf' tips_of'
tokenChecks token_checks
top-root top_root
total-from total_from
total-to total_to
totalAt total_at
totals-now totals_now
transitive-pair transitive_pair
tree-held tree_held
tree-prop tree_prop
two-more two_more
two-roots two_roots
undecided-most undecided_most
under-one-bound under_one_bound
under-other under_other
under-owner under_owner
under-self-bound under_self_bound
under-zero under_zero
unique-from unique_from
unique-of unique_of
unique-path unique_path
use-less use_less
use-more use_more
use-same use_same
valid-of valid_of
way-from way_from
ways-room ways_room
whole-last whole_last
wide-graded wide_graded
wide-strict wide_strict
width-left width_left
with-charge with_charge
with-hand with_hand
withReadings with_readings
within-outside within_outside
without-length without_length
worked-logs worked_logs_lem
written-file written_file
written-more written_more
written-push written_push
zero-add zero_add
zero-add-pair zero_add_pair
zero-first zero_first
"""


def table(crate):
    rows = dict(row.split() for row in NAMES.split("\n") if row)
    rows.update(row.split()[1:] for row in OWN.split("\n") if row and row.split()[0] == crate)
    return rows


def turned(line, rows, quiet):
    """The line with its names spelled anew; in a comment only those that no English word is like."""
    at = re.search(r"(?:^|\s)(?:--|//)", line) if quiet else None
    code, rest = (line[: at.start()], line[at.start() :]) if at else (line, "")
    plain = {a: b for a, b in rows.items() if re.match(r"[a-z]\w*[A-Z]", a)}
    return WORD.sub(lambda m: rows.get(m.group(0), m.group(0)), code) + WORD.sub(lambda m: plain.get(m.group(0), m.group(0)), rest)


def turn(path, rows):
    with open(path, encoding="utf-8") as f:
        old = f.read()
    rust = path.endswith(".rt")
    new = []
    for line in old.split("\n"):
        # a name that Rust could have too turns in clauses alone
        clause = not rust or re.match(r"\s*(?:ghost|requires|ensures)\b", line)
        here = rows if clause else {a: b for a, b in rows.items() if not re.fullmatch(r"[a-z0-9_]+", a)}
        new.append(turned(line, here, True))
    text = "\n".join(new)
    if text != old:
        with open(path, "w", encoding="utf-8") as f:
            f.write(text)
    return text != old


def main():
    if not os.path.isdir("crates"):
        sys.exit("spell_names: run it at the top of the repository")
    count = 0
    for crate in sorted(os.listdir("crates")):
        rows = table(crate)
        for folder, dirs, names in os.walk(os.path.join("crates", crate)):
            dirs[:] = [d for d in dirs if d != "out"]
            count += sum(turn(os.path.join(folder, n), rows) for n in names if n.endswith((".rt", ".antt")))
    print(f"spell_names: {count} files changed")


main()
