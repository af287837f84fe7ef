#!/usr/bin/env python3
"""Brings the names of our own definitions and lemmas to the kit's spelling: words in snake case.

usage: python3 tools/respell.py        at the top of the repository, once, right after the kit's own script

Each pair below is an old name and its new one. A definition is in snake case, and so is a lemma; a dash stays only
before a symbol or a name that is none of our words. Where a lemma would have got a definition's name it ends in `_lem`.
Functions of src/, strings, comments, inputs and outputs keep what they have. Pages take the new names in code quotes.
"""

import os
import re

PAIRS = """
inNames in_names;
As-mono As_mono; Astmin-mono Astmin_mono; a-text a_text; acc-high acc_high; acc-low acc_low;
accepted-first accepted_first; accepted-keeps accepted_keeps; accepted-law accepted_law;
accepted-or-not accepted_or_not; acceptedOf accepted_of; act-high act_high; act-low act_low; act-within act_within;
admits-at admits_at; admitted-all admitted_all; afterNext after_next; agg-high agg_high; all-met all_met;
allPlaced all_placed; allPlain all_plain; allSmall all_small; allTrue all_true; allUnlike all_unlike;
allWithin all_within; annexNames annex_names; annexOf annex_of; apart-high apart_high; area-high area_high;
area-low area_low; area-rises area_rises; area-within area_within; areaOf area_of; as-harsh as_harsh;
atLine at_line; atPlace at_place; bar-is bar_is; barExact bar_exact; barFields bar_fields; barFigure bar_figure;
barMeaning bar_meaning; barMeets bar_meets; barOf bar_of; behind-header behind_header; behind-none behind_none;
bendAgrees bend_agrees; beside-fck beside_fck; beside-mm beside_mm; beside-other beside_other;
beside-row beside_row; beside-tabled beside_tabled; between-cut between_cut; between-whole between_whole;
body-lacks body_lacks; bond-admitted bond_admitted; bond-high bond_high; bondNumbered bond_numbered;
bondOf bond_of; bound-more bound_more; by-lb-15 by_lb_15; by-surplus by_surplus; byField by_field;
cases-option cases_option; ceiling-is ceiling_is; ceiling-law ceiling_law; ceiling-least ceiling_least;
ceiling-mono ceiling_mono; ceiling-near ceiling_near; ceiling-only ceiling_only; ceiling-reaches ceiling_reaches;
ceiling-same ceiling_same; ceiling-zero ceiling_zero; checked-all checked_all; checking-all checking_all;
checking-more checking_more; checking-none checking_none; checking-stops checking_stops; cond-mono cond_mono;
cond-most cond_most; cond-ok cond_ok; count-all count_all; count-le count_le; count-more count_more;
cover-high cover_high; cover-order cover_order; cut-here cut_here; decimal-short decimal_short;
decimal-some decimal_some; detailOf detail_of; dia-high dia_high; dia-low dia_low; dia-tabled dia_tabled;
diameter-within diameter_within; digit-more digit_more; digit-stops digit_stops; digitsFrom digits_from;
eff-high eff_high; eff-most eff_most; entryLine entry_line; err-ok err_ok; every-at every_at;
factor-code factor_code; factor-mono factor_mono; factor-most factor_most; factor-same factor_same;
far-mono far_mono; fbd-mono fbd_mono; fbd-pos fbd_pos; fcd-mono fcd_mono; fcd-num fcd_num; fck-high fck_high;
fck-low fck_low; fck-same fck_same; fck-tabled fck_tabled; fckOf fck_of; fctk-high fctk_high; fctk-low fctk_low;
fctk-rises fctk_rises; fctk-within fctk_within; fctkOf fctk_of; fctm-rises fctm_rises; fctm-within fctm_within;
fctmOf fctm_of; feed-more feed_more; feed-other feed_other; feeds-count feeds_count; feeds-le feeds_le;
feeds-lines feeds_lines; few-behind few_behind; few-later few_later; few-lines few_lines; fieldLine field_line;
fieldLines field_lines; fields-all fields_all; fields-count fields_count; fields-more fields_more;
fields-numbers fields_numbers; fields-short fields_short; figure-answer figure_answer; figure-mono figure_mono;
figure-near figure_near; figure-passed figure_passed; figureOf figure_of; first-all first_all;
first-and-later first_and_later; first-digit first_digit; first-law first_law; firstFailed first_failed;
firstFall first_fall; firstOut first_out; form-high form_high; found-later found_later; fullStress full_stress;
fyk-high fyk_high; fyk-low fyk_low; gap-high gap_high; gc-high gc_high; gc-low gc_low; gc-within gc_within;
gcOf gc_of; going-all going_all; going-none going_none; granted-means granted_means; gs-high gs_high;
gs-within gs_within; header-law header_law; header-ready header_ready; headerOf header_of; implies-at implies_at;
in-line in_line_lem; inLine in_line; isRanged is_ranged; isRising is_rising; isText is_text;
judged-above judged_above; judged-failed judged_failed; k1-high k1_high; k1-within k1_within; k2-high k2_high;
k2-within k2_within; kind-admitted kind_admitted; km-within km_within; ks-within ks_within; l0-code l0_code;
l0-mono l0_mono; l0-most l0_most; l0-top l0_top; l0-within l0_within; lacks-all lacks_all;
lacks-append lacks_append; lacks-at lacks_at; lacks-front lacks_front; laidOver laid_over;
lap-agrees lap_agrees_lem; lap-least lap_least; lapAgrees lap_agrees; laterLines later_lines; lb-code lb_code;
lb-den lb_den; lb-mono lb_mono; lb-most lb_most; lb-top lb_top; lb-under lb_under; lb-within lb_within;
lbd-code lbd_code; lbd-mono lbd_mono; lbd-most lbd_most; lbd-top lbd_top; lbd-within lbd_within;
least-mandrel least_mandrel; least-share least_share; leb-cases leb_cases; leb-scaled leb_scaled;
length-is length_is; length-onFirst length-on_first; length-start length_start; length-under length_under;
less-den less_den; less-le less_le; less-mono less_mono; less-ths less_ths; line-all line_all;
line-apart line_apart; line-body line_body; line-counted line_counted; line-ends line_ends; line-here line_here;
line-joined line_joined; line-more line_more; line-of-first line_of_first; line-one line_one;
line-three line_three; line-three-length line_three_length; line-two line_two; line-two-length line_two_length;
line-under line_under; lineEnd line_end; lineFeeds line_feeds; lineText line_text; lineThen line_then;
lines-joined lines_joined; lines-le lines_le; lines-only lines_only; lines-under lines_under_lem;
linesUnder lines_under; mandrel-code mandrel_code; mandrel-high mandrel_high; mandrel-mono mandrel_mono;
mandrel-step mandrel_step; mark-answer mark_answer; mark-failed mark_failed; mark-is mark_is;
mark-right mark_right; marks-order marks_order; max-error max_error; max-mul-le max_mul_le; meansOf means_of;
meets-answer meets_answer; meets-none meets_none; meets-passed meets_passed; meetsOf meets_of; mm-same mm_same;
mm-tabled mm_tabled; mmOf mm_of; multiple-field multiple_field; multiple-high multiple_high;
multiple-range multiple_range; multiple-rises multiple_rises; multiple-within multiple_within;
multipleOf multiple_of; names-once names_once; near-law near_law; nextLexeme next_lexeme; nextPart next_part;
noFall no_fall; none-decides none_decides; none-some none_some; not-refused not_refused;
numbers-short numbers_short; numbersIn numbers_in; numbersOf numbers_of; numbersText numbers_text; on-ok on_ok_lem;
on-passes on_passes; onCurve on_curve; onErr on_err; onFirst on_first; onOk on_ok; one-digit one_digit;
only-lines only_lines; onlyLine only_line; order-law order_law; over-all over_all; over-buffer over_buffer;
over-count over_count; over-mono over_mono; pairs-at pairs_at; part-came part_came; part-gone part_gone;
partText part_text; parts-apart parts_apart; parts-count parts_count; parts-counted parts_counted;
partsBehind parts_behind; partsByLine parts_by_line; pass-from pass_from; passed-as passed_as;
passes-milder passes_milder; pitch-high pitch_high; place-fck place_fck; place-le place_le; place-mm place_mm;
place-new place_new; place-rises place_rises; place-row place_row; place-some place_some;
place-within place_within; placeFrom place_from; placed-each placed_each; placed-more placed_more;
placed-not placed_not; placed-stops placed_stops; placedCount placed_count; placesFrom places_from;
placesIn places_in; placing-all placing_all; placing-more placing_more; placing-none placing_none;
placing-twice placing_twice; placing-unknown placing_unknown; plain-from-test plain_from_test;
plain-header plain_header; plain-line plain_line; press-high press_high; product-error product_error;
ranged-decides ranged_decides; read-granted read_granted; read-says read_says; reading-all reading_all;
reading-end reading_end; reading-more reading_more; reading-none reading_none; reading-stops reading_stops;
recommended-ranged recommended_ranged; recommended-rising recommended_rising; refusal-short refusal_short;
refusalOf refusal_of; refusalText refusal_text; refused-for refused_for; refusedAt refused_at; reportOf report_of;
rising-decides rising_decides; round-error round_error; round-most round_most; round-most-15 round_most_15;
rounded-lb-mono rounded_lb_mono; rounded-mono rounded_mono; rules-kept rules_kept; said-length said_length;
same-detail same_detail; says-as says_as; says-read says_read; says-written says_written; set-leaves set_leaves;
seven-ths seven_ths; share-admitted share_admitted; share-high share_high; share-top share_top;
side-high side_high; situationOf situation_of; slender-rises slender_rises; some-lines some_lines;
some-parts some_parts; spelled-short spelled_short; spelled-some spelled_some; spread-mono spread_mono;
standAsNames stand_as_names; stands-none stands_none; stands-some stands_some; stillInNames still_in_names;
strength-within strength_within; stress-high stress_high; sub-mul sub_mul; surplus-code surplus_code;
surplus-mono surplus_mono; surplus-order surplus_order; surplus-same surplus_same; tabled-row tabled_row;
take-both take_both; tension-lap tension_lap; test-says test_says; testAt test_at; tested-all tested_all;
testedAs tested_as; tests-are tests_are; text-apart text_apart; text-ends text_ends; text-joined text_joined;
text-of-lines text_of_lines; text-two text_two; thisLine this_line; three-within three_within; ths-four ths_four;
ths-mono ths_mono; ths-one ths_one; ths-over ths_over; ths-same ths_same; ths-whole ths_whole;
ths-⊔-least ths-⊔_least; told-all told_all; told-end told_end; told-goes told_goes; told-ok told_ok;
told-stops told_stops; trans-high trans_high; twice-cd twice_cd; under-line under_line; under-lines under_lines;
under-ok under_ok; unlike-from-test unlike_from_test; up-mono up_mono; value-law value_law;
value-stops value_stops; value-writes value_writes; valueThen value_then; values-from values_from_lem;
values-ok values_ok; valuesFrom values_from; weld-high weld_high; weld-most weld_most; well-named well_named;
with-α6-code with-α6_code; with-α6-most with-α6_most; with-α6-top with-α6_top; with-α6-within with-α6_within;
within-at within_at; within-cond within_cond; within-from within_from; within-rounded within_rounded;
within-self within_self; within-whole within_whole; workedLines worked_lines; worst-asks worst_asks;
worst-lb worst_lb; worst-ranged worst_ranged; writes-decimal writes_decimal; writes-plain writes_plain;
writes-value writes_value; written-says written_says; wrote-all wrote_all; wrote-both wrote_both;
wrote-full wrote_full; wrote-room wrote_room; zero-writes zero_writes; zeroAlone zero_alone; α1-mono α1_mono;
α1-most α1_most; α1-top α1_top; α2-code α2_code; α2-mono α2_mono; α2-most α2_most; α2-top α2_top;
α235-compression α235_compression; α235-mono α235_mono; α235-most α235_most; α235-tension α235_tension;
α235-top α235_top; α235-within α235_within; α3-beam α3_beam; α3-lap α3_lap; α3-mono α3_mono; α3-most α3_most;
α3-slab α3_slab; α3-top α3_top; α4-mono α4_mono; α4-most α4_most; α4-top α4_top; α5-code α5_code; α5-mono α5_mono;
α5-most α5_most; α5-top α5_top; α6-high α6_high; α6-low α6_low; α6-mono α6_mono; α6-most α6_most;
α6-second α6_second; α6-third α6_third; α6-top α6_top; α6-within α6_within; η1-mono η1_mono; η1-pos η1_pos;
η2-mono η2_mono; η2-pos η2_pos;
"""

NEW = dict(pair.split() for pair in PAIRS.replace("\n", " ").split(";") if pair.strip())
NAME = re.compile(r"[^`\s(){}\[\];,.:\"⌜⌝⟦⟧]+")
# a string or a comment of a source file, kept as it is
KEPT = re.compile(r"b?\"(?:[^\"\\]|\\.)*\"|//[^\n]*")
QUOTED = re.compile(r"`[^`\n]+`")


def respelled(text):
    return NAME.sub(lambda m: NEW.get(m.group(0), m.group(0)), text)


def in_source(text):
    out, at = [], 0
    for kept in KEPT.finditer(text):
        out += [respelled(text[at : kept.start()]), kept.group(0)]
        at = kept.end()
    return "".join(out) + respelled(text[at:])


def in_page(text):
    return QUOTED.sub(lambda m: respelled(m.group(0)), text)


def ways(path):
    if path.endswith(".antt"):
        return respelled
    if path.endswith(".rt"):
        return in_source
    if path.endswith(".md"):
        return in_page
    return None


def main():
    assert os.path.isdir("crates"), "run it at the top of the repository"
    for top in ("crates", "docs", "README.md"):
        folders = os.walk(top) if os.path.isdir(top) else [("", [], [top])]
        for folder, inner, files in folders:
            inner[:] = [d for d in inner if d != "out"]
            for name in files:
                path = os.path.join(folder, name)
                way = ways(path)
                if way is None:
                    continue
                with open(path, encoding="utf-8") as file:
                    old = file.read()
                new = way(old)
                if new != old:
                    with open(path, "w", encoding="utf-8") as file:
                        file.write(new)


if __name__ == "__main__":
    main()
