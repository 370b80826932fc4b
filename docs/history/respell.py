#!/usr/bin/env python3
"""Respells this repository's own definitions, lemmas and ghost members: words in snake case, facts in camel case.

usage: python3 tools/respell.py        at the top of the repository, once, after the toolchain's own upgrade script

A lemma that would get its function's name gets `_lem`. Functions of src/, strings, comments, inputs and outputs keep
their names. Names that the toolchain makes (goals, steps) are not in the table.
"""

import os
import re

TABLE = """
    Aes-permutes-blocks:AesPermutesBlocks Box-examples:BoxExamples Boxes-undo:BoxesUndo Columns-undo:ColumnsUndo
    Inverse-inverts:InverseInverts K1:k1 K1-sized:k1_sized K2:k2 K2-sized:k2_sized Product-linear:ProductLinear
    Siv-exact:SivExact accepted-was-written:accepted_was_written accepts-told:accepts_told addRoundKey:add_round_key
    after-all:after_all after-head:after_head after-linear:after_linear agree-pairs:agree_pairs all-widths:all_widths
    and-true:and_true append-bytes:append_bytes append-sized:append_sized arrives-only:arrives_only
    at-most:at_most_lem at-values:at_values atIndex:at_index before-append:before_append before-nil:before_nil
    beforeLast:before_last beneath-by-halving:beneath_by_halving beneath-child:beneath_child beneath-from:beneath_from
    beneath-is:beneath_is beneath-parent:beneath_parent beneath-within:beneath_within block-sized:block_sized
    box-examples:box_examples by-child:by_child by-former:by_former bytesOf-sized:bytes_of_sized
    candidateAt:candidate_at candidates-kept:candidates_kept chain-all:chain_all chain-none:chain_none
    chain-sized:chain_sized changed-all:changed_all changed-decides:changed_decides changed-in:changed_in
    changed-inner:changed_inner changed-no:changed_no changed-nodes:changed_nodes_lem changed-none:changed_none
    changed-splits:changed_splits changed-up:changed_up changed-yes:changed_yes changedNodes:changed_nodes
    changedUpTo:changed_up_to checkVerdict:check_verdict child-half:child_half child-known:child_known
    children-few:children_few children-fit:children_fit cipher-decipher:cipher_decipher cipher-sized:cipher_sized
    cleared-sized:cleared_sized cmac-length:cmac_length cmac-sized:cmac_sized cmacOf:cmac_of codeOfDigit:code_of_digit
    codesAt:codes_at codesFrom:codes_from columns-bytes:columns_bytes columns-length:columns_length
    columns-undo:columns_undo cond-bytes:cond_bytes content-listed:content_listed contentOr:content_or
    contentRight:content_right count-ends:count_ends count-stops:count_stops countFields:count_fields
    countRead:count_read counting-in:counting_in ctr-ctr:ctr_ctr ctr-from:ctr_from ctr-length:ctr_length
    ctr-sized:ctr_sized dbl-sized:dbl_sized decipher-cipher:decipher_cipher decipher-sized:decipher_sized
    decrypt-by:decrypt_by decryptParts:decrypt_parts digitValue:digit_value drop-bytes:drop_bytes
    drop-sized:drop_sized each-wrap:each_wrap encrypt-by:encrypt_by encrypt-length:encrypt_length end-added:end_added
    epoch-range:epoch_range evenPower:even_power everyPlace:every_place expanded-bytes:expanded_bytes
    expanded-more:expanded_more expanded-none:expanded_none falling-in:falling_in fault-++:fault_++
    few-halvings:few_halvings few-nodes:few_nodes few-scanners:few_scanners few-up-to:few_up_to few-wraps:few_wraps
    fewNodes:few_nodes fewWraps:few_wraps fileFields:file_fields fileSize:file_size filled-all:filled_all
    first-linear:first_linear former-few:former_few former-in:former_in former-is:former_is former-keys:former_keys
    former-known:former_known former-made:former_made former-newcomer:former_newcomer former-own:former_own
    formerServes:former_serves fourth-linear:fourth_linear front-all:front_all front-more:front_more
    front-none:front_none full-house:full_house half-child:half_child half-sized:half_sized half-unhalf:half_unhalf
    halved-add:halved_add halved-first:halved_first halved-low:halved_low halved-out:halved_out
    halved-zero:halved_zero head-counts:head_counts head-stops:head_stops headBytes:head_bytes headFields:head_fields
    headRead:head_read held-child:held_child_lem heldChild:held_child ifDone:if_done in-append:in_append
    in-changed:in_changed in-counting:in_counting in-joined:in_joined in-nodes:in_nodes in-plan:in_plan
    inc-sized:inc_sized initialValue:initial_value inner-from:inner_from inner-is:inner_is inner-sized:inner_sized
    inv-mix-byte:inv_mix_byte_lem inv-mix-linear:inv_mix_linear inv-mix-mix:inv_mix_mix inv-mix-sized:inv_mix_sized
    inv-mix-undo:inv_mix_undo inv-rounds-more:inv_rounds_more inv-rounds-none:inv_rounds_none
    inv-rounds-sized:inv_rounds_sized inv-s-box-byte:inv_s_box_byte inv-s-box-entry:inv_s_box_entry
    inv-s-box-undoes:inv_s_box_undoes inv-shift-sized:inv_shift_sized inv-shift-undo:inv_shift_undo
    inv-sub-sized:inv_sub_sized inv-sub-undo:inv_sub_undo invAffine:inv_affine invCipher:inv_cipher
    invLastRound:inv_last_round invMixByte:inv_mix_byte invMixColumns:inv_mix_columns invRound:inv_round
    invRounds:inv_rounds invSBox:inv_s_box invSBoxTable:inv_s_box_table invShiftRows:inv_shift_rows
    invSubBytes:inv_sub_bytes inverse-inverts:inverse_inverts isInner:is_inner isLeaf:is_leaf kept-le:kept_le
    kept-lt:kept_lt kept-or:kept_or kept-short:kept_short key-expanded:key_expanded
    key-oriented-lawful:key_oriented_lawful key-words:key_words keyBytes:key_bytes keyExpansion:key_expansion
    keyLength:key_length keyOriented:key_oriented keyUnwrap:key_unwrap keyWrap:key_wrap
    keystream-bytes:keystream_bytes kind-byte:kind_byte kindNamed:kind_named kindRange:kind_range
    known-present:known_present laid-append:laid_append laid-fits:laid_fits last-bytes:last_bytes
    last-changed:last_changed last-member:last_member last-padded:last_padded last-part:last_part
    last-sized:last_sized last-whole:last_whole lastRound:last_round lastString:last_string layoutFault:layout_fault
    leaf-alone:leaf_alone leaf-from:leaf_from leaf-is:leaf_is leaf-unchanged:leaf_unchanged leaf-under:leaf_under
    leaf-within:leaf_within_lem leafWithin:leaf_within leaves-few:leaves_few leaves-fit:leaves_fit
    leaves-fit-but:leaves_fit_but left-none:left_none left-same:left_same lengthRange:length_range line-of:line_of_lem
    listed-none:listed_none low7-sized:low7_sized mLast:m_last map-bytes:map_bytes map-in:map_in map-undo:map_undo
    mapped-all:mapped_all mapped-front:mapped_front mapped-more:mapped_more mapped-none:mapped_none
    marked-is:marked_is middle-part:middle_part mix-byte:mix_byte_lem mix-inv-mix:mix_inv_mix mix-linear:mix_linear
    mix-sized:mix_sized mix-undo:mix_undo mixByte:mix_byte mixColumns:mix_columns moved-bytes:moved_bytes
    moved-sized:moved_sized nameBytes:name_bytes next-bytes:next_bytes next-front:next_front nextWord:next_word
    nodeFields:node_fields nodeRight:node_right nodes-fall:nodes_fall nodes-more:nodes_more nodes-stop:nodes_stop
    nodesBytes:nodes_bytes nodesOf:nodes_of nodesRead:nodes_read not-bit:not_bit occupied-decides:occupied_decides
    occupied-inner:occupied_inner occupied-leaf:occupied_leaf occupied-up:occupied_up one-fits:one_fits
    one-of-four:one_of_four open-only:open_only open-siv:open_siv_lem openLeaves:open_leaves openSiv:open_siv
    openVerdict:open_verdict openedWasSealed:opened_was_sealed opener-epoch:opener_epoch opener-node:opener_node_lem
    opener-within:opener_within openerAt:opener_at openerKey:opener_key openerName:opener_name openerNode:opener_node
    opensSealed:opens_sealed over-next:over_next own-key-earlier:own_key_earlier padding-sized:padding_sized
    pairValue:pair_value pairs-all:pairs_all pairs-done:pairs_done pairs-no:pairs_no pairs-short:pairs_short
    pairs-yes:pairs_yes pairsFor:pairs_for pairsFrom:pairs_from part-front:part_front part-sized:part_sized
    parts-only:parts_only plan-all:plan_all plan-done:plan_done plan-few:plan_few plan-in:plan_in
    plan-is-sound:plan_is_sound plan-no:plan_no plan-none:plan_none plan-short:plan_short plan-written:plan_written
    plan-yes:plan_yes planLeaves:plan_leaves planUpTo:plan_up_to planVerdict:plan_verdict power-byte:power_byte
    powerOfX:power_of_x present-in:present_in present-keys:present_keys present-made:present_made
    product-by:product_by product-byte:product_byte product-xor:product_xor readBack:read_back reads-back:reads_back
    recovered-some:recovered_some recovered-start:recovered_start refusalOf:refusal_of rekeyOf:rekey_of
    replicate-bytes:replicate_bytes right-all:right_all right-more:right_more right-none:right_none
    rot-bytes:rot_bytes rotWord:rot_word roundKey:round_key roundOf:round_of rounds-more:rounds_more
    rounds-none:rounds_none rounds-sized:rounds_sized s-box-byte:s_box_byte s-box-entry:s_box_entry
    s-box-undoes:s_box_undoes s2v-length:s2v_length s2v-long:s2v_long s2v-short:s2v_short s2v-sized:s2v_sized
    sBox:s_box sBoxTable:s_box_table same-all:same_all same-suc:same_suc same-uneven:same_uneven
    scaled-byte:scaled_byte scaled-xor:scaled_xor sealLeaves:seal_leaves sealPair:seal_pair sealVerdict:seal_verdict
    sealed-bytes:sealed_bytes sealedKey:sealed_key sealedSized:sealed_sized second-linear:second_linear
    set-bytes:set_bytes shift-length:shift_length shift-sized:shift_sized shift-undo:shift_undo shiftRows:shift_rows
    siv-sized:siv_sized sivDecrypt:siv_decrypt sivEncrypt:siv_encrypt sivOf:siv_of some-from:some_from
    some-who:some_who sound-returns:sound_returns stands-beneath:stands_beneath stands-children:stands_children
    stands-decides:stands_decides stands-is:stands_is stands-leaf:stands_leaf stands-zero:stands_zero
    star-lawful:star_lawful start-sized:start_sized step-sized:step_sized step-unstep:step_unstep
    steps-more:steps_more steps-none:steps_none steps-sized:steps_sized steps-unsteps:steps_unsteps still-is:still_is
    stream-all:stream_all stream-more:stream_more stream-none:stream_none sub-bytes:sub_bytes_lem sub-sized:sub_sized
    sub-undo:sub_undo subBytes:sub_bytes subWord:sub_word sum-byte:sum_byte sum-linear:sum_linear sum-xor:sum_xor
    sumOfBits:sum_of_bits tail-added:tail_added take-bytes:take_bytes take-sized:take_sized temp-bytes:temp_bytes
    textOr:text_or thenEmpty:then_empty third-linear:third_linear times-linear:times_linear timesX:times_x
    to-come:to_come told-place:told_place top-is:top_is top-serves:top_serves topWithin:top_within
    top_within:top_within_lem two-parts:two_parts unchanged-only:unchanged_only under-from:under_from
    unhalf-half:unhalf_half unhalf-sized:unhalf_sized unstep-sized:unstep_sized unstep-step:unstep_step
    unsteps-more:unsteps_more unsteps-none:unsteps_none unsteps-sized:unsteps_sized unsteps-steps:unsteps_steps
    unwrap-only:unwrap_only unwrap-wrap:unwrap_wrap unwrapStep:unwrap_step unwrapSteps:unwrap_steps
    user-oriented-lawful:user_oriented_lawful userOriented:user_oriented was-written:was_written withIndex:with_index
    within-cases:within_cases within-from:within_from within-is:within_is within-node:within_node
    within-self:within_self within-stop:within_stop within-top:within_top within-trans:within_trans
    within-up:within_up words-all:words_all wrap-ends:wrap_ends wrap-inside:wrap_inside wrap-sized:wrap_sized
    wrapAt:wrap_at wrapBytes:wrap_bytes wrapCount:wrap_count wrapFields:wrap_fields wrapKind:wrap_kind
    wrapLength:wrap_length wrapName:wrap_name wrapPlace:wrap_place wrapStep:wrap_step wrapSteps:wrap_steps
    wraps-decide:wraps_decide wraps-end:wraps_end wraps-many:wraps_many wraps-more:wraps_more wraps-nth:wraps_nth
    wrapsBytes:wraps_bytes wrapsFields:wraps_fields wrapsFrom:wraps_from wrapsRead:wraps_read write-more:write_more
    written-three:written_three written-two:written_two x-times-byte:x_times_byte xTimes:x_times xor-test:xor_test
    xor-undo:xor_undo xorend-bytes:xorend_bytes xorend-length:xorend_length xorend-xorend:xorend_xorend
    xors-append:xors_append xors-bytes:xors_bytes xors-front:xors_front xors-length:xors_length xors-nil:xors_nil
    xors-sized:xors_sized xors-suc:xors_suc xors-xors:xors_xors zero-none:zero_none zeros-sized:zeros_sized
"""

NAMES = dict(pair.split(":") for pair in TABLE.split())
# comments and strings stay; a word ends where the prover ends it
ANTT = re.compile(r"(--(?=\s|$)[^\n]*)|([^\s(){},.;=\[\]|:]+)")
RUST = re.compile(r"(//[^\n]*|\"(?:[^\"\\]|\\.)*\"|b?'(?:[^'\\]|\\.)')|([A-Za-z_][\w-]*)")
PAGE = re.compile(r"()(?<=`)([A-Za-z_][\w-]*)(?=`)")
FORMS = {".antt": ANTT, ".rt": RUST, ".edit": RUST, ".md": PAGE}


def respelled(form, text):
    return form.sub(lambda m: m[1] or NAMES.get(m[2], m[2]), text)


def main():
    for top in ("crates", "docs", "README.md"):
        for folder, dirs, files in os.walk(top) if os.path.isdir(top) else [("", [], [top])]:
            dirs[:] = [d for d in dirs if d not in ("out", "target")]
            for name in files:
                form = FORMS.get(os.path.splitext(name)[1])
                if not form:
                    continue
                path = os.path.join(folder, name)
                with open(path, encoding="utf-8") as f:
                    old = f.read()
                new = respelled(form, old)
                if new != old:
                    with open(path, "w", encoding="utf-8") as f:
                        f.write(new)


main()
