#!/usr/bin/env python3
"""Respells this repository's own names after the kit's port.py, once, at the top of the checkout.

Definitions, lemmas, fields and constructors of specs/ and proofs/ get the kit's spelling: types in upper camel case, all else in snake
case. A dash stays where it joins the names of two definitions. A lemma that would fall together with a definition gets another name.
In proofs/F/, the names that the kit makes keep the spelling of the source, so `in-ok-next-word` is `in_ok-next_word`.
Functions of src/, strings, inputs and outputs keep their names.
"""

import glob
import os
import re
import sys

# old>new
TABLE = """
Answered-by-uppermost>AnsweredByUppermost Closure-only-places>ClosureOnlyPlaces Closure-right>ClosureRight
Covered-decided>CoveredDecided Descends-decided>DescendsDecided Name-means-descent>NameMeansDescent
No-own-parent>NoOwnParent Question-read>QuestionRead Ring-found>RingFound Ring-shows>RingShows
Ringed-decided>RingedDecided Under-uppermost>UnderUppermost Uppermost-decided>UppermostDecided absorb-left>absorb_left
absorb-right>absorb_right after-digit>after_digit after-large>after_large after-middle>after_middle
after-other>after_other afterAll>after_all alike-sym>alike_sym all-from-digits>all_from_digits all-zero>all_zero
allDigits>all_digits allDigits-hex>all_digits_hex answer-accepted>answer_accepted answer-end>answer_end
answer-names>answer_names answer-passed>answer_passed answer-past>answer_past answer-written>answer_written
answerByRules>answer_by_rules answerOfNames>answer_of_names answerRefusal>answer_refusal answerTold>answer_told
answered-by-uppermost>answered_by_uppermost answered-open>answered_open answered-same>answered_same
answered-so>answered_so anySpace>any_space anySpace-hex>any_space_hex anySpace-push>any_space_push
apart-alike>apart_alike apart-answers>apart_answers apart-decides>apart_decides appends-part>appends_part
applied-agrees>applied_agrees applied-lies>applied_lies appliedWord>applied_word as-shown>as_shown
asVerdict>as_verdict ask-due>ask_due ask-goes-on>ask_goes_on ask-passed>ask_passed ask-ready>ask_ready
ask-said>ask_said ask-stops>ask_stops askRefusal>ask_refusal asked-names>asked_names asked-set>asked_set at-any>at_any
back-again>back_again badSerial>bad_serial before-middle>before_middle beforeHead>before_head
belongs-closed>belongs_closed belongs-refused>belongs_refused below-few>below_few below-front>below_front
below-inserted>below_inserted below-joined>below_joined below-kept>below_kept below-middle>below_middle
below-removed>below_removed below-trans>below_trans belowCovered>below_covered belowOthers>below_others bit-of>bit_of
bitsSort>bits_sort bytes-of>bytes_of_lem bytesOf-more>bytes_of_more bytesOf-push>bytes_of_push
catalogueTold>catalogue_told cell-kept>cell_kept cell-read>cell_read cell-written>cell_written
changed-within>changed_within child-goes-on>child_goes_on child-passed>child_passed childRefusal>child_refusal
children-at>children_at children-below>children_below children-rise>children_rise chosen-alike>chosen_alike
clear-more>clear_more close-due>close_due closed-filled>closed_filled closed-passes>closed_passes
closes-lent>closes_lent closing-due>closing_due closingRefusal>closing_refusal closingTold>closing_told
closure-agrees>closure_agrees closure-column>closure_column closure-keeps>closure_keeps
closure-only-places>closure_only_places closure-places>closure_places closure-right>closure_right
closure-step>closure_step closure-trans>closure_trans codeTold>code_told cond-first>cond_first countBelow>count_below
countIn>count_in countRefusal>count_refusal counted-before>counted_before counted-here>counted_here
counting-below>counting_below counting-distinct>counting_distinct covered-alike>covered_alike
covered-decided>covered_decided covered-has>covered_has covered-is>covered_is covered-left>covered_left
covered-moved>covered_moved covered-put>covered_put covered-within>covered_within coveredAt>covered_at
coveredPlaces>covered_places cut-back>cut_back cut-here>cut_here decides-implies>decides_implies decimalIn>decimal_in
decode-more>decode_more decoded-names>decoded_names depthAfter>depth_after depthBy>depth_by
descends-alike>descends_alike descends-by-more>descends_by_more descends-decided>descends_decided
descends-leads>descends_leads descends-refl>descends_refl descends-trans>descends_trans descent-back>descent_back
digit-below>digit_below digit-last>digit_last digit-more>digit_more digit-one>digit_one digit-put>digit_put
digit-shifted>digit_shifted digit-suc>digit_suc digit-take>digit_take digit-zero>digit_zero
digitValue-hexDigit>digit_value_hex_digit digits-from-all>digits_from_all digits-tell>digits_tell
direct-right>direct_right distinct-front>distinct_front distinct-middle>distinct_middle distinct-one>distinct_one
due-is>due_is due-more>due_more each-decided>each_decided each-push>each_push eachKind>each_kind east-sound>east_sound
effectRefusal>effect_refusal either-recalls>either_recalls end-last>end_last end-passed>end_passed
endRefusal>end_refusal ends-passed>ends_passed endsRefusal>ends_refusal enter-line>enter_line
entered-filed>entered_filed entered-joining>entered_joining entered-rising>entered_rising entered-seats>entered_seats
entered-serials>entered_serials equal-answers>equal_answers err-kept>err_kept err-listed>err_listed err-says>err_says
even-count>even_count even-fits>even_fits few-places>few_places field-ends>field_ends fields-joined>fields_joined
fieldsAfter>fields_after first-apart>first_apart first-in>first_in first-in-word>first_in_word first-lies>first_lies
first-none>first_none fit-due>fit_due fit-evaluated>fit_evaluated fit-goes-on>fit_goes_on fit-ready>fit_ready
fit-said>fit_said fit-set>fit_set fit-stops>fit_stops fitByRules>fit_by_rules fitRefusal>fit_refusal
fits-list>fits_list fitsName>fits_name fitted-set>fitted_set followed-all>followed_all followed-at>followed_at
followed-in>followed_in followed-length>followed_length followed-next>followed_next followed-push>followed_push
found-low>found_low fullRooms>full_rooms gap-filed>gap_filed gap-stands>gap_stands gave-verdict>gave_verdict
gave-words>gave_words given-passes>given_passes good-serial>good_serial greater-from>greater_from
has-between>has_between has-count>has_count has-place>has_place hasLine>has_line here-stands>here_stands
hexDigit>hex_digit hexDigits>hex_digits highest-among>highest_among holds-agrees>holds_agrees
holds-agrees-from>holds_agrees_from holds-closed>holds_closed holds-next>holds_next holds-open>holds_open
holds-set>holds_set holds-within>holds_within holds-within-from>holds_within_from image-back>image_back
image-lines>image_lines image-names>image_names image-passed>image_passed image-written>image_written
imageBody>image_body imageLength>image_length imageOfNames>image_of_names imageRefusal>image_refusal
imageTold>image_told in-alike>in_alike in-set>in_set_lem inside-more>inside_more inside-some>inside_some
is-closed>is_closed isKind>is_kind isSpace>is_space isSpace-hexDigit>is_space-hex_digit join-all>join_all
joining-inserted>joining_inserted joining-kept>joining_kept joining-removed>joining_removed just-below>just_below
keepsRule>keeps_rule kept-few>kept_few kept-stands>kept_stands kept-turn>kept_turn key-at>key_at key-tells>key_tells
kind-covers>kind_covers kind-keeps>kind_keeps kind-of>kind_of kind-passed>kind_passed kind-passes>kind_passes
kind-pushed>kind_pushed kindNumber>kind_number kindRefusal>kind_refusal kindsIn>kinds_in kit-value>kit_value
kitLength>kit_length last-check>last_check leader-stands>leader_stands leads-after>leads_after
leads-descends>leads_descends leads-first>leads_first leads-from>leads_from leads-trans>leads_trans
ledger-append>ledger_append ledger-push>ledger_push ledgerAfter>ledger_after left-serials>left_serials
left-turn>left_turn length-held-more>length-held_more length-lines>length_lines length-middle>length_middle
lent-within>lent_within lentRefusal>lent_refusal lesser-upto>lesser_upto line-append>line_append
line-at>line_stands_at line-cases>line_cases line-ends>line_ends line-here>line_here line-later>line_later
line-mentions-child>line_mentions_child line-mentions-parent>line_mentions_parent line-more>line_more
line-none>line_none line-position>line_position line-pushed>line_pushed line-tells>line_tells
line-written>line_written lineBreak>line_break lineIn>line_in lineWords>line_words lines-ended>lines_ended
lines-pass>lines_pass lines-passed>lines_passed lines-right>lines_right linesIn>lines_in linesRefusal>lines_refusal
linked-append>linked_append linked-more>linked_more linked-some>linked_some listRefusal>list_refusal
listTold>list_told lone-and>lone_and long-enough>long_enough look-line>look_line low-bits-same>low_bits_same
lowBits>low_bits lowRefusal>low_refusal lower-place>lower_place lower-stands>lower_stands lowest-and>lowest_and
lowest-or>lowest_or made-same>made_same map-inserted>map_inserted map-removed>map_removed marked-set>marked_set
meet-more>meet_more mentioned-append>mentioned_append mentioned-lined>mentioned_lined mentioned-more>mentioned_more
mostEntries>most_entries mostWords>most_words name-by-low>name_by_low name-leaves>name_leaves
name-means-descent>name_means_descent name-written>name_written nameRefusal>name_refusal named-descends>named_descends
named-passed>named_passed named-passes>named_passes namedRefusal>named_refusal names-answer>names_answer
names-back>names_back names-few>names_few names-image>names_image names-kept>names_kept names-missing>names_missing
names-next>names_next names-pass>names_pass names-passed>names_passed names-right>names_right
names-uppermost>names_uppermost names-upto>names_upto names-wrong>names_wrong namesRefusal>names_refusal
namesTold>names_told near-cell>near_cell new-holds>new_holds next-bound>next_bound next-none>next_none
next-packet>next_packet no-kinds>no_kinds none-applied>none_applied none-holds>none_holds none-in-word>none_in_word
none-leads-back>none_leads_back none-refused>none_refused not-lesser-from>not_lesser_from
not-not-twenty>not_not_twenty not-twenty>not_twenty notAnswer>not_answer notDue>not_due nothing-more>nothing_more
nothingDue>nothing_due number-by-effect>number_by_effect number-by-rule>number_by_rule number-nibbles>number_nibbles
numeral-all>numeral_all numeral-large>numeral_large numeral-more>numeral_more numeral-other>numeral_other
numeralAfter>numeral_after numeralIn>numeral_in okCounts>ok_counts okKits>ok_kits okLine>ok_line okVerdict>ok_verdict
okWords>ok_words onTop>on_top onTwo>on_two one-high>one_high one-kind>one_kind one-low>one_low one-row>one_row
only-bits>only_bits only-length>only_length only-packets>only_packets only-parity>only_parity open-check>open_check
or-false>or_false own-both>own_both own-more>own_more packet-apart>packet_apart packet-none>packet_none
packet-some>packet_some packet-there>packet_there packetAt>packet_at packets-lawful>packets_lawful
packetsHave>packets_have packetsSort>packets_sort pairs-back>pairs_back pairs-more>pairs_more pairs-none>pairs_none
pairsIn>pairs_in parent-passed>parent_passed parent-some>parent_some parentRefusal>parent_refusal
parents-below>parents_below parents-fail>parents_fail parity-append>parity_append parity-count>parity_count
parity-front>parity_front parity-parts>parity_parts parity-past>parity_past part-back>part_back
part-beyond>part_beyond part-front>part_front part-long>part_long part-middle>part_middle partName>part_name
partsRefusal>parts_refusal passed-hold>passed_hold paste-one>paste_one path-from>path_from path-here>path_here
path-in>path_in placeOf>place_of plain-after>plain_after plain-first>plain_first plain-whole>plain_whole
plainly-said>plainly_said proper-placed>proper_placed put-any>put_any put-before>put_before put-cells>put_cells
put-done>put_done put-place>put_place question-read>question_read questionRefusal>question_refusal
questionTold>question_told read-image>read_image reading-holds>reading_holds reading-leaves>reading_leaves
reads-back>reads_back recall-due>recall_due recallRefusal>recall_refusal refuseIf>refuse_if refusedLine>refused_line
refuses-ring>refuses_ring ring-descends>ring_descends ring-found>ring_found ring-refuses>ring_refuses
ring-shows>ring_shows ring-stands>ring_stands ring-told>ring_told ring-up>ring_up ring-within>ring_within
ringLine>ring_line ringed-alike>ringed_alike ringed-by>ringed_by ringed-decided>ringed_decided
rises-append>rises_append rises-end>rises_end rises-few>rises_few rises-here>rises_here rises-low>rises_low
rises-lower>rises_lower rises-off>rises_off rises-on>rises_on rises-one>rises_one rises-only>rises_only
rises-tested>rises_tested rises-told>rises_told rises-top>rises_top rising-above>rising_above rising-at>rising_at
rising-fits>rising_fits rising-inserted>rising_inserted rising-kept>rising_kept rising-later>rising_later
rising-lower>rising_lower rising-removed>rising_removed rising-upto>rising_upto risingFrom>rising_from
room-left>room_left round-none>round_none round-some>round_some row-by-kind>row_by_kind row-covers>row_covers
rowKeeps>row_keeps rowPlaces>row_places rule-even>rule_even rule-from>rule_from rule-rises>rule_rises ruleOf>rule_of
run-all>run_all run-some>run_some said-so>said_so same-bounds>same_bounds same-fields>same_fields same-fit>same_fit
same-from-bytesOf>same_from_bytes_of same-kinds>same_kinds same-packets>same_packets same-position>same_position
same-rooms>same_rooms same-slots-trans>same_slots_trans same-words>same_words says-lent>says_lent scan-all>scan_all
scan-more>scan_more scan-none>scan_none seat-at>seat_at seated-first>seated_first seated-inserted>seated_inserted
seated-kinds>seated_kinds seated-middle>seated_middle seated-pushed>seated_pushed seated-removed>seated_removed
seats-count>seats_count serial-at-low>serial_at_low serial-back>serial_back serial-is>serial_is serial-low>serial_low
serial-of-place>serial_of_place serial-passes>serial_passes serialAt>serial_at serialRefusal>serial_refusal
serialTold>serial_told serials-back>serials_back serialsIn>serials_in serialsOf>serials_of setOf>set_of setsOf>sets_of
setting-out>setting_out short-keeps>short_keeps shown-few>shown_few skip-more>skip_more slots-begin>slots_begin
some-before>some_before some-each>some_each some-inside>some_inside some-parent>some_parent_lem
some-place>at_least_one some-push>some_push some-round>some_round_lem someParent>some_parent somePlace>some_place
someRound>some_round spaced-more>spaced_more splice-even>splice_even splice-length>splice_length
splice-parity>splice_parity splice-rises>splice_rises splice-room>splice_room standing-held>standing_held
standing-placed>standing_placed stands-above>stands_above stands-append>stands_append stands-inserted>stands_inserted
stands-kept>stands_kept stands-middle>stands_middle stands-more>stands_more stands-none>stands_none
stands-position>stands_position start-belongs>start_belongs stepped-put>stepped_put stillAmong>still_among
stillStanding>still_standing table-long>table_long tells-apart>tells_apart ten-and-forty>ten_and_forty
ten-and-not-twenty>ten_and_not_twenty ten-or-forty>ten_or_forty too-deep>too_deep top-keeps>top_keeps
top-lies>top_lies top-marked>top_marked turn-length>turn_length turn-order>turn_order turn-parity>turn_parity
turn-parts>turn_parts turn-rises>turn_rises turn-room>turn_room turn-room-at>turn_room_at turn-said>turn_said
turned-put>turned_put turned-top>turned_top twenty-and-thirty>twenty_and_thirty twenty-or-thirty>twenty_or_thirty
two-keep>two_keep two-leave>two_leave two-left>two_left two-lie>two_lie under-nibbles>under_nibbles
under-uppermost>under_uppermost unless-same>unless_same unlessDue>unless_due upper-place>upper_place
upper-stands>upper_stands uppermost-alike>uppermost_alike uppermost-decided>uppermost_decided
uppermost-moved>uppermost_moved uppermost-same>uppermost_same uppermostAt>uppermost_at value-as-places>value_as_places
valueAfter-ge>value_after_ge valueAfter-hex>value_after_hex verdict-said>verdict_said view-few>view_few
view-placed>view_placed walk-all>walk_all walk-avoids>walk_avoids walk-descends>walk_descends walk-last>walk_last
walk-next>walk_next walk-reaches>walk_reaches walk-some>walk_some was-kind>was_kind west-sound>west_sound
whole-belongs>whole_belongs withdraw-line>withdraw_line withdrawn-below>withdrawn_below
withdrawn-joining>withdrawn_joining withdrawn-kept>withdrawn_kept withdrawn-rising>withdrawn_rising
withdrawn-seats>withdrawn_seats within-and>within_and without-keeps>without_keeps without-length>without_length
without-line>without_line without-shorter>without_shorter word-is>word_is wordBytes-byte>word_bytes_byte
wordBytes-joined>word_bytes_joined wordIn-hexDigits>word_in_hex_digits wordRefusal>word_refusal words-read>words_read
words-said>words_said wordsHave>words_have wordsIn-hexDigits>words_in_hex_digits wordsRefusal>words_refusal
write-image>write_image write-more>write_more writes-decimal>writes_decimal written-more>written_more
written-within>written_within zero-asked>zero_asked zeros-end>zeros_end zeros-here>zeros_here zeros-off>zeros_off
zeros-on>zeros_on zeros-replicate>zeros_replicate zeros-set>zeros_set zeros-tested>zeros_tested zeros-told>zeros_told
"""

# what the kit itself puts into the names that it makes
MADE = "in_ok in_err in_default type_inv invariant_of in_bounds slice_bounds nonzero_div nonzero_rem overflow_add overflow_sub overflow_mul overflow_cast overflow_shl overflow_shr overflow_step the_invariant"

WORD = re.compile(r"[A-Za-z][\w'-]*")
FROM_SOURCE = re.compile(r"\b[a-z][a-z0-9]*(?:_[a-z0-9]+)+\b")


def read(path):
    with open(path, encoding="utf-8") as f:
        return f.read()


def rewrite(path, turn):
    old = read(path)
    new = WORD.sub(lambda m: turn(m.group(0)), old)
    if new != old:
        with open(path, "w", encoding="utf-8") as f:
            f.write(new)
    return new != old


def files(root, pattern):
    return sorted(p for p in glob.glob(os.path.join(root, "crates", "*", pattern), recursive=True) if "/out/" not in p)


def main(root):
    table = dict(pair.split(">") for pair in TABLE.split())
    if len(set(table.values())) != len(table):
        sys.exit("respell: two names fall together")
    sources = files(root, "src/**/*.rt")
    own = set(table) | set(table.values())
    changed = 0
    for path in sources + files(root, "specs/**/*.antt") + files(root, "proofs/**/*.antt") + files(root, "must-fail/*.edit"):
        changed += rewrite(path, lambda word: table.get(word, word))
    spelled = set(MADE.split())
    for path in sources:
        spelled.update(FROM_SOURCE.findall(read(path)))
    by_dash = {name.replace("_", "-"): name for name in spelled}
    longest_first = "|".join(sorted(map(re.escape, by_dash), key=len, reverse=True))
    part = re.compile(rf"(?<![A-Za-z0-9_])({longest_first})(?![A-Za-z0-9_])")

    def made(word):
        return word if word in own or "-" not in word else part.sub(lambda m: by_dash[m.group(1)], word)

    for path in files(root, "proofs/*/**/*.antt"):
        changed += rewrite(path, made)
    print(f"respell: {changed} times a file was rewritten")


if __name__ == "__main__":
    main(sys.argv[1] if len(sys.argv) > 1 else ".")
