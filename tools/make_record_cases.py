#!/usr/bin/env python3
"""Writes the record files that the programs are run on.

    crates/record_cases/data/*.rec and cases.txt   small files, lawful and not, and the list of their names
    crates/problem_show/data/problem.rec           the vat, an example
    examples/vat/problem.rec                       the vat again

Run it anywhere; it takes no arguments.  The name of a file says what loading it is to answer: ok_..., or
refused_N_... with the number N of the first question whose answer is no; refused_N_before_M_... breaks both rules.
The files case_*.rec are not made here: they stay as they are, and are listed behind the others.

The answers, with their places, stand in crates/record_cases/stdout as data: neither this script nor the program that
is tested makes them.
"""

import pathlib
import struct

ROOT = pathlib.Path(__file__).resolve().parent.parent

# The kinds of records.
HEAD, BIT, NUMBER, EXPRESSION, FORMULA, ACTION, EVENT, PROCESS, BIT_EFFECT, NUMBER_EFFECT, RATE, GOAL = range(1, 13)

# Operations of expressions; a constant is operation 0 and has a function of its own.
VALUE_OF, SUM, DIFFERENCE, PRODUCT = range(1, 5)

# Operations of formulas.
TRUE, HOLDS, AT_MOST, LESS, EQUAL, GREATER, AT_LEAST, NOT, AND, OR = range(10)

# Ways to change a number.
ASSIGN, INCREASE, DECREASE = range(3)

LARGEST = 1_000_000_000
DEEPEST = 12


# -- one record ------------------------------------------------------------


def record(kind, body):
    """A length of two bytes, the kind in two bytes, and the body; the length counts the last two."""
    return struct.pack('<HH', 2 + len(body), kind) + body


def fields(*values):
    return b''.join(struct.pack('<H', v) for v in values)


def value(v):
    return struct.pack('<i', v)


def head(tick=5):
    return record(HEAD, fields(tick))


def bit(first=0):
    return record(BIT, fields(first))


def number(first=0):
    return record(NUMBER, value(first))


def constant(v):
    return record(EXPRESSION, fields(0) + value(v))


def expression(operation, a, b=0):
    return record(EXPRESSION, fields(operation, a, b))


def formula(operation, a=0, b=0):
    return record(FORMULA, fields(operation, a, b))


def action(condition, name):
    return record(ACTION, fields(condition) + name)


def event(condition):
    return record(EVENT, fields(condition))


def process(condition):
    return record(PROCESS, fields(condition))


def set_bit(condition, b, to):
    return record(BIT_EFFECT, fields(condition, b, to))


def change(condition, way, n, e):
    return record(NUMBER_EFFECT, fields(condition, way, n, e))


def rate(n, e):
    return record(RATE, fields(n, e))


def goal(f):
    return record(GOAL, fields(f))


# -- small problems --------------------------------------------------------


def vat():
    """A vat that is filled while it is open, and closes by itself when it is full."""
    opened, alarm = 0, 1
    level, speed = 0, 1
    level_now, full_level, above_full, speed_now = range(4)
    always, is_open, is_closed, is_full, closes, done = range(6)
    return b''.join([
        head(5),
        bit(0), bit(0),
        number(0), number(3),
        expression(VALUE_OF, level),
        constant(30),
        expression(DIFFERENCE, level_now, full_level),
        expression(VALUE_OF, speed),
        formula(TRUE),
        formula(HOLDS, opened),
        formula(NOT, is_open),
        formula(AT_LEAST, above_full),
        formula(AND, is_open, is_full),
        formula(AND, is_full, is_closed),
        action(is_closed, b'open'), set_bit(always, opened, 1),
        action(is_open, b'close'), set_bit(always, opened, 0),
        event(closes), set_bit(always, opened, 0), set_bit(always, alarm, 1),
        process(is_open), rate(level, speed_now),
        goal(done),
    ])


# One row of each sort that others name: bit 0, number 0, expression 0 and formula 0.
ROWS = bit() + number() + constant(3) + formula(TRUE)
START = head() + ROWS
END = goal(0)

# One lawful record of each kind; effects and rates want an owner before them.
LAWFUL = {
    'head': head(),
    'bit': bit(),
    'number': number(),
    'expression': expression(SUM, 0, 0),
    'formula': formula(NOT, 0),
    'action': action(0, b'act'),
    'event': event(0),
    'process': process(0),
    'bit_effect': set_bit(0, 0, 1),
    'number_effect': change(0, INCREASE, 0, 0),
    'rate': rate(0, 0),
    'goal': goal(0),
}
OWNERS = {'bit_effect': action(0, b'owner'), 'number_effect': event(0), 'rate': process(0)}


def around(kind):
    """What stands before a lawful record of this kind, and behind it."""
    if kind == 'head':
        return b'', ROWS + END
    if kind == 'goal':
        return START, b''
    return START + OWNERS.get(kind, b''), END


def names(count):
    """So many names that differ."""
    return [b'a%d' % k for k in range(count)]


def actions(count):
    return b''.join(action(0, name) for name in names(count))


def effects(count):
    """So many effects, of bits and of numbers, of two actions and two events."""
    quarter = count // 4
    return b''.join([
        action(0, b'one'), set_bit(0, 0, 1) * quarter,
        event(0), change(0, ASSIGN, 0, 0) * quarter,
        action(0, b'two'), change(0, DECREASE, 0, 0) * quarter,
        event(0), set_bit(0, 0, 0) * (count - 3 * quarter),
    ])


def rates(count):
    """So many rates, of two processes."""
    half = count // 2
    return process(0) + rate(0, 0) * half + process(0) + rate(0, 0) * (count - half)


def sums(deepest):
    """Expressions behind START of depth 2 and more; expression k has depth k + 1."""
    return b''.join(expression(SUM, k, k) for k in range(deepest - 1))


def nots(deepest):
    """Formulas behind START of depth 2 and more; formula k has depth k + 1."""
    return b''.join(formula(NOT, k) for k in range(deepest - 1))


# -- the cases: for each question its refusals, and what comes close and is lawful ---


def whole():
    """1. Is the record whole?"""
    cut = goal(0)
    yield 'refused_1_one_byte', b'\x04'
    yield 'refused_1_one_byte_behind_records', START + b'\x04'
    yield 'refused_1_one_byte_behind_goal', START + END + b'\x00'
    yield 'refused_1_length_alone', START + cut[:2]
    yield 'refused_1_length_alone_in_file', head()[:2]
    yield 'refused_1_half_a_kind', START + cut[:3]
    yield 'refused_1_kind_alone', START + cut[:4]
    yield 'refused_1_last_byte_lacks', START + cut[:5]
    yield 'refused_1_last_byte_of_head_lacks', head()[:5]
    yield 'refused_1_last_byte_of_vat_lacks', vat()[:-1]
    yield 'refused_1_vat_cut_in_the_middle', vat()[:101]
    yield 'refused_1_length_past_the_end', START + struct.pack('<HH', 200, BIT) + bytes(100)
    yield 'refused_1_length_past_the_end_by_one', START + struct.pack('<HH', 200, BIT) + bytes(197)
    yield 'refused_1_length_65535', START + struct.pack('<HH', 65535, BIT) + bytes(2)
    yield 'refused_1_length_0', START + b'\x00\x00' + END
    yield 'refused_1_length_0_first', b'\x00\x00' + START + END
    yield 'refused_1_length_0_last', START + END + b'\x00\x00'
    yield 'refused_1_length_1', START + b'\x01\x00\x02' + END
    yield 'refused_1_length_1_last', START + END + b'\x01\x00\x02'
    yield 'refused_1_zeros', bytes(64)


def kinds():
    """2. Are kind and length right?"""
    yield 'refused_2_kind_0', START + record(0, fields(0)) + END
    yield 'refused_2_kind_0_without_body', START + record(0, b'') + END
    yield 'refused_2_kind_13', START + record(13, fields(0)) + END
    yield 'refused_2_kind_13_with_three_values', START + record(13, value(0) + value(0) + value(9)) + END
    yield 'refused_2_kind_13_first', record(13, fields(5)) + START + END
    yield 'refused_2_kind_258', START + record(258, fields(0)) + END
    yield 'refused_2_kind_65535', START + record(65535, fields(0)) + END
    yield 'refused_2_kind_65535_last', START + END + record(65535, fields(0))
    for kind, lawful in LAWFUL.items():
        before, behind = around(kind)
        (code,) = struct.unpack_from('<H', lawful, 2)
        body = lawful[4:]
        yield f'ok_{kind}', before + lawful + behind
        yield f'refused_2_{kind}_without_body', before + record(code, b'') + behind
        if kind == 'action':
            continue
        yield f'refused_2_{kind}_short', before + record(code, body[:-1]) + behind
        yield f'refused_2_{kind}_long', before + record(code, body + b'\x00') + behind
        yield f'refused_2_{kind}_long_by_a_field', before + record(code, body + fields(0)) + behind
    yield 'refused_2_action_with_half_a_condition', START + record(ACTION, b'\x00') + END
    yield 'refused_2_name_of_0_letters', START + action(0, b'') + END
    yield 'refused_2_name_of_25_letters', START + action(0, b'a' * 25) + END
    yield 'refused_2_name_of_300_letters', START + action(0, b'a' * 300) + END


def order():
    """3. May the record stand here?"""
    yield 'refused_3_head_twice', head() + START + END
    yield 'refused_3_head_twice_apart', START + head() + END
    for kind, lawful in LAWFUL.items():
        if kind != 'head':
            yield f'refused_3_{kind}_first', lawful + START + END
        yield f'refused_3_{kind}_behind_goal', START + OWNERS.get(kind, b'') + END + lawful
    sets, changes, rises = set_bit(0, 0, 1), change(0, ASSIGN, 0, 0), rate(0, 0)
    acts, fires, runs = action(0, b'act'), event(0), process(0)
    yield 'refused_3_bit_effect_without_owner', START + sets + END
    yield 'refused_3_number_effect_without_owner', START + changes + END
    yield 'refused_3_rate_without_owner', START + rises + END
    yield 'refused_3_bit_effect_behind_process', START + runs + sets + END
    yield 'refused_3_number_effect_behind_process', START + runs + changes + END
    yield 'refused_3_bit_effect_behind_action_and_process', START + acts + sets + runs + sets + END
    yield 'refused_3_number_effect_behind_event_and_process', START + fires + changes + runs + rises + changes + END
    yield 'refused_3_rate_behind_action', START + acts + rises + END
    yield 'refused_3_rate_behind_event', START + fires + rises + END
    yield 'refused_3_rate_behind_effect', START + acts + sets + rises + END
    yield 'refused_3_rate_behind_process_and_action', START + runs + rises + acts + rises + END
    yield 'refused_3_rate_behind_process_and_event', START + runs + rises + fires + changes + rises + END
    yield 'ok_effects_mixed', START + acts + sets + changes + sets + fires + changes + sets + changes + END
    yield 'ok_owners_mixed', START + runs + rises + fires + sets + acts + changes + runs + rises + END
    yield 'ok_rows_between_action_and_effect', START + acts + bit() + formula(HOLDS, 1) + set_bit(1, 1, 1) + END
    yield 'ok_rows_between_event_and_effect', START + fires + number() + constant(1) + change(0, ASSIGN, 1, 1) + END
    yield 'ok_rows_between_process_and_rate', START + runs + number() + constant(1) + rate(1, 1) + END
    yield 'ok_vat', vat()


def limits():
    """4. Is the limit of its kind kept?"""
    yield 'ok_64_bits', START + bit() * 63 + END
    yield 'refused_4_65_bits', START + bit() * 64 + END
    yield 'ok_32_numbers', START + number() * 31 + END
    yield 'refused_4_33_numbers', START + number() * 32 + END
    yield 'ok_1024_expressions', START + constant(7) * 1023 + END
    yield 'refused_4_1025_expressions', START + constant(7) * 1024 + END
    yield 'ok_1024_formulas', START + formula(TRUE) * 1023 + goal(1023)
    yield 'refused_4_1025_formulas', START + formula(TRUE) * 1024 + END
    yield 'ok_64_actions', START + actions(64) + END
    yield 'refused_4_65_actions', START + actions(65) + END
    yield 'ok_32_events', START + event(0) * 32 + END
    yield 'refused_4_33_events', START + event(0) * 33 + END
    yield 'ok_32_processes', START + process(0) * 32 + END
    yield 'refused_4_33_processes', START + process(0) * 33 + END
    yield 'ok_64_actions_32_events_32_processes', START + actions(64) + event(0) * 32 + process(0) * 32 + END
    yield 'ok_512_effects', START + effects(512) + END
    yield 'refused_4_513_effects_by_a_bit', START + effects(512) + set_bit(0, 0, 1) + END
    yield 'refused_4_513_effects_by_a_number', START + effects(512) + change(0, ASSIGN, 0, 0) + END
    yield 'refused_4_513_effects_by_a_new_owner', START + effects(512) + action(0, b'last') + set_bit(0, 0, 1) + END
    yield 'ok_512_bit_effects', START + event(0) + set_bit(0, 0, 1) * 512 + END
    yield 'refused_4_513_bit_effects', START + event(0) + set_bit(0, 0, 1) * 513 + END
    yield 'ok_512_number_effects', START + action(0, b'act') + change(0, INCREASE, 0, 0) * 512 + END
    yield 'refused_4_513_number_effects', START + action(0, b'act') + change(0, INCREASE, 0, 0) * 513 + END
    yield 'ok_64_rates', START + rates(64) + END
    yield 'refused_4_65_rates', START + rates(65) + END
    yield 'refused_4_65_rates_of_one_process', START + process(0) + rate(0, 0) * 65 + END
    yield 'refused_4_65_rates_by_a_new_owner', START + rates(64) + process(0) + rate(0, 0) + END
    full = START + bit() * 63 + number() * 31 + constant(7) * 1023 + formula(TRUE) * 1023
    full += effects(512) + actions(62) + event(0) * 30 + rates(64) + process(0) * 30
    yield 'ok_every_limit', full + goal(1023)
    yield 'refused_9_every_limit_without_goal', full


def values():
    """5. Are the fields lawful?"""
    for tick in (1, 1000):
        yield f'ok_tick_{tick}', head(tick) + formula(TRUE) + END
    for tick in (0, 1001, 65535):
        yield f'refused_5_tick_{tick}', head(tick) + formula(TRUE) + END
    yield 'ok_flag_1', START + bit(1) + END
    for flag in (2, 256, 65535):
        yield f'refused_5_flag_{flag}', START + bit(flag) + END
    for sort, make in (('number', number), ('constant', constant)):
        yield f'ok_{sort}_largest', START + make(LARGEST) + END
        yield f'ok_{sort}_least', START + make(-LARGEST) + END
        yield f'refused_5_{sort}_too_large', START + make(LARGEST + 1) + END
        yield f'refused_5_{sort}_too_low', START + make(-LARGEST - 1) + END
        yield f'refused_5_{sort}_2147483647', START + make(2**31 - 1) + END
        yield f'refused_5_{sort}_minus_2147483648', START + make(-2**31) + END
    for operation in (5, 256, 65535):
        yield f'refused_5_expression_operation_{operation}', START + expression(operation, 0, 0) + END
    for operation in (10, 256, 65535):
        yield f'refused_5_formula_operation_{operation}', START + formula(operation, 0, 0) + END
    yield 'refused_5_value_with_unused_field', START + expression(VALUE_OF, 0, 1) + END
    yield 'refused_5_true_with_first_field', START + formula(TRUE, 1, 0) + END
    yield 'refused_5_true_with_second_field', START + formula(TRUE, 0, 1) + END
    for name, operation in (('bit', HOLDS), ('at_most', AT_MOST), ('less', LESS), ('equal', EQUAL),
                            ('greater', GREATER), ('at_least', AT_LEAST), ('not', NOT)):
        yield f'ok_formula_{name}', START + formula(operation, 0) + END
        yield f'refused_5_{name}_with_unused_field', START + formula(operation, 0, 1) + END
    for name, operation in (('and', AND), ('or', OR)):
        yield f'ok_formula_{name}', START + formula(operation, 0, 0) + END
    for name, operation in (('sum', SUM), ('difference', DIFFERENCE), ('product', PRODUCT)):
        yield f'ok_expression_{name}', START + expression(operation, 0, 0) + END
    yield 'refused_5_bit_effect_flag_2', START + event(0) + set_bit(0, 0, 2) + END
    yield 'refused_5_bit_effect_flag_256', START + event(0) + set_bit(0, 0, 256) + END
    for way in (ASSIGN, INCREASE, DECREASE):
        yield f'ok_way_{way}', START + event(0) + change(0, way, 0, 0) + END
    yield 'refused_5_way_3', START + event(0) + change(0, 3, 0, 0) + END
    yield 'refused_5_way_256', START + event(0) + change(0, 256, 0, 0) + END


def letters():
    """5 again, for the letters of a name; its length is a matter of question 2."""
    yield 'ok_letters', START + action(0, b'abcdefghijklmnopqrstuvwx') + action(0, b'yz0123456789-_') + END
    yield 'ok_name_of_1_letter', START + action(0, b'a') + END
    yield 'ok_name_of_24_letters', START + action(0, b'z' * 24) + END
    for name, letter in (('hyphen', b'-'), ('underscore', b'_'), ('digit', b'0')):
        yield f'ok_{name}_alone', START + action(0, letter) + END
    # The neighbours of the ranges, and a few others.
    for name, letter in (('capital', b'A'), ('capital_z', b'Z'), ('space', b' '), ('zero_byte', b'\x00'),
                         ('comma', b','), ('dot', b'.'), ('slash', b'/'), ('colon', b':'), ('caret', b'^'),
                         ('grave', b'`'), ('brace', b'{'), ('byte_128', b'\x80'), ('byte_255', b'\xff')):
        yield f'refused_5_letter_{name}', START + action(0, letter) + END
    yield 'refused_5_last_letter', START + action(0, b'a' * 23 + b'!') + END
    yield 'refused_5_first_letter', START + action(0, b'!' + b'a' * 23) + END


def rows():
    """6. Do the rows that it names stand?  Behind START each sort has one row, so that row 1 is the next."""
    yield 'refused_6_value_of_number_1', START + expression(VALUE_OF, 1) + END
    yield 'refused_6_value_of_number_65535', START + expression(VALUE_OF, 65535) + END
    yield 'refused_6_value_of_number_0_where_none_is', head() + expression(VALUE_OF, 0) + END
    yield 'refused_6_value_of_number_256', START + expression(VALUE_OF, 256) + END
    for name, operation in (('sum', SUM), ('difference', DIFFERENCE), ('product', PRODUCT)):
        yield f'refused_6_{name}_of_itself', START + expression(operation, 1, 1) + END
        yield f'refused_6_{name}_first_part', START + expression(operation, 1, 0) + END
        yield f'refused_6_{name}_second_part', START + expression(operation, 0, 1) + END
        yield f'refused_6_{name}_of_later_rows', START + expression(operation, 2, 3) + constant(0) * 2 + END
    yield 'refused_6_bit_1', START + formula(HOLDS, 1) + END
    yield 'refused_6_bit_0_where_none_is', head() + formula(HOLDS, 0) + END
    yield 'refused_6_bit_of_a_later_row', START + formula(HOLDS, 1) + bit() + END
    for name, operation in (('at_most', AT_MOST), ('less', LESS), ('equal', EQUAL),
                            ('greater', GREATER), ('at_least', AT_LEAST)):
        yield f'refused_6_{name}_expression_1', START + formula(operation, 1) + END
    yield 'refused_6_not_itself', START + formula(NOT, 1) + END
    yield 'refused_6_first_formula_not_itself', head() + formula(NOT, 0) + END
    for name, operation in (('and', AND), ('or', OR)):
        yield f'refused_6_{name}_itself', START + formula(operation, 1, 1) + END
        yield f'refused_6_{name}_first_part', START + formula(operation, 1, 0) + END
        yield f'refused_6_{name}_second_part', START + formula(operation, 0, 1) + END
    yield 'refused_6_action_formula_1', START + action(1, b'act') + END
    yield 'refused_6_event_formula_1', START + event(1) + END
    yield 'refused_6_process_formula_1', START + process(1) + END
    yield 'refused_6_event_formula_of_a_later_row', START + event(1) + formula(TRUE) + END
    yield 'refused_6_goal_formula_1', START + goal(1)
    yield 'refused_6_goal_formula_65535', START + goal(65535)
    yield 'refused_6_goal_where_no_formula_is', head() + goal(0)
    yield 'refused_6_bit_effect_formula_1', START + event(0) + set_bit(1, 0, 1) + END
    yield 'refused_6_bit_effect_bit_1', START + event(0) + set_bit(0, 1, 1) + END
    yield 'refused_6_number_effect_formula_1', START + event(0) + change(1, ASSIGN, 0, 0) + END
    yield 'refused_6_number_effect_number_1', START + event(0) + change(0, INCREASE, 1, 0) + END
    yield 'refused_6_number_effect_expression_1', START + event(0) + change(0, DECREASE, 0, 1) + END
    yield 'refused_6_rate_number_1', START + process(0) + rate(1, 0) + END
    yield 'refused_6_rate_expression_1', START + process(0) + rate(0, 1) + END
    # Sorts are counted apart: two bits are no two numbers, and two expressions no two formulas.
    yield 'refused_6_number_1_beside_bit_1', START + bit() + expression(VALUE_OF, 1) + END
    yield 'refused_6_formula_1_beside_expression_1', START + constant(0) + event(1) + END
    yield 'ok_row_255_of_256', START + constant(0) * 255 + expression(SUM, 255, 255) + END
    yield 'ok_row_1022_of_1023', START + constant(0) * 1022 + expression(SUM, 1022, 0) + END


def depths():
    """7. Is its depth at most 12?"""
    yield 'ok_expression_of_depth_12', START + sums(DEEPEST) + END
    yield 'refused_7_expression_of_depth_13', START + sums(DEEPEST + 1) + END
    for name, operation in (('sum', SUM), ('difference', DIFFERENCE), ('product', PRODUCT)):
        yield f'refused_7_{name}_deep_first', START + sums(DEEPEST) + expression(operation, 11, 0) + END
        yield f'refused_7_{name}_deep_second', START + sums(DEEPEST) + expression(operation, 0, 11) + END
        yield f'ok_{name}_over_depth_11', START + sums(DEEPEST) + expression(operation, 10, 10) + END
    yield 'ok_formula_of_depth_12', START + nots(DEEPEST) + goal(11)
    yield 'refused_7_formula_of_depth_13', START + nots(DEEPEST + 1) + END
    for name, operation in (('and', AND), ('or', OR)):
        yield f'refused_7_{name}_deep_first', START + nots(DEEPEST) + formula(operation, 11, 0) + END
        yield f'refused_7_{name}_deep_second', START + nots(DEEPEST) + formula(operation, 0, 11) + END
        yield f'ok_{name}_over_depth_11', START + nots(DEEPEST) + formula(operation, 10, 10) + END
    # A comparison has depth 1, however deep its expression is.
    compared = head() + constant(3) + sums(DEEPEST) + formula(AT_LEAST, 11)
    yield 'ok_depth_12_over_a_deep_comparison', compared + nots(DEEPEST) + END
    yield 'refused_7_depth_13_over_a_deep_comparison', compared + nots(DEEPEST + 1) + END


def new_names():
    """8. Is the name of an action new?"""
    acts = action(0, b'act')
    yield 'refused_8_same_name', START + acts + acts + END
    yield 'refused_8_same_name_with_records_between', START + acts + set_bit(0, 0, 1) + event(0) + acts + END
    yield 'refused_8_same_name_as_the_first_of_many', START + actions(20) + action(0, b'a0') + END
    yield 'refused_8_same_name_as_the_last_of_many', START + actions(20) + action(0, b'a19') + END
    yield 'refused_8_same_name_of_1_letter', START + action(0, b'x') + action(0, b'x') + END
    yield 'refused_8_same_name_of_24_letters', START + action(0, b'x' * 24) + action(0, b'x' * 24) + END
    yield 'refused_8_same_name_other_condition', START + formula(NOT, 0) + acts + action(1, b'act') + END
    yield 'ok_names_that_begin_alike', START + acts + action(0, b'ac') + action(0, b'acts') + END
    yield 'ok_names_that_end_apart', START + action(0, b'x' * 23 + b'y') + action(0, b'x' * 24) + END


def goals():
    """9. Has the goal come?"""
    yield 'refused_9_empty', b''
    yield 'refused_9_head_alone', head()
    yield 'refused_9_rows_without_goal', START
    yield 'refused_9_vat_without_goal', vat()[:-len(goal(0))]
    yield 'refused_9_owners_without_goal', START + effects(9) + rates(3)
    yield 'ok_least', head() + formula(TRUE) + END


def pairs():
    """Records that break two rules: the lower number is told."""
    bits, numbers = bit() * 63, number() * 31
    expressions, formulas = constant(7) * 1023, formula(TRUE) * 1023
    deep_sums, deep_nots = START + sums(DEEPEST), START + nots(DEEPEST)
    yield 'refused_1_before_2_cut_record_of_kind_13', START + record(13, fields(0))[:-1]
    yield 'refused_1_before_2_length_0_of_kind_0', START + bytes(4) + END
    yield 'refused_1_before_2_first_record', struct.pack('<HH', 9, 99)
    yield 'refused_1_before_3_cut_second_head', START + head()[:-1]
    yield 'refused_1_before_3_cut_record_behind_goal', START + END + bit()[:-1]
    yield 'refused_1_before_4_cut_bit', START + bits + bit()[:-1]
    yield 'refused_1_before_5_cut_head', head(0)[:-1]
    yield 'refused_1_before_6_cut_goal', START + goal(1)[:-1]
    yield 'refused_1_before_9_cut_last_record', START + number()[:-1]
    yield 'refused_2_before_3_kind_0_first', record(0, fields(0)) + START + END
    yield 'refused_2_before_3_kind_13_behind_goal', START + END + record(13, fields(0))
    yield 'refused_2_before_3_long_second_head', START + record(HEAD, fields(5, 5)) + END
    yield 'refused_2_before_3_long_effect_without_owner', START + record(BIT_EFFECT, fields(0, 0, 1, 0)) + END
    yield 'refused_2_before_3_short_rate_behind_action', START + action(0, b'act') + record(RATE, fields(0)) + END
    yield 'refused_2_before_4_long_bit', START + bits + record(BIT, fields(0, 0)) + END
    yield 'refused_2_before_4_name_of_25_letters', START + actions(64) + action(0, b'a' * 25) + END
    yield 'refused_2_before_5_long_head', record(HEAD, fields(0, 0)) + ROWS + END
    yield 'refused_2_before_5_name_of_25_capitals', START + action(0, b'A' * 25) + END
    yield 'refused_2_before_6_long_goal', START + record(GOAL, fields(1, 0))
    yield 'refused_2_before_8_name_of_0_letters', START + action(0, b'') + action(0, b'') + END
    yield 'refused_3_before_4_effect_behind_process', START + effects(512) + process(0) + set_bit(0, 0, 1) + END
    yield 'refused_3_before_4_rate_behind_event', START + rates(64) + event(0) + rate(0, 0) + END
    yield 'refused_3_before_4_bit_behind_goal', START + bits + END + bit()
    yield 'refused_3_before_5_second_head_with_tick_0', START + head(0) + END
    yield 'refused_3_before_5_first_bit_with_flag_2', bit(2) + START + END
    yield 'refused_3_before_5_flag_2_without_owner', START + set_bit(0, 0, 2) + END
    yield 'refused_3_before_5_way_3_behind_process', START + process(0) + change(0, 3, 0, 0) + END
    yield 'refused_3_before_5_capital_behind_goal', START + END + action(0, b'A')
    yield 'refused_3_before_6_goal_first', goal(0) + START + END
    yield 'refused_3_before_6_effect_without_owner', START + set_bit(0, 1, 1) + END
    yield 'refused_3_before_6_rate_behind_action', START + action(0, b'act') + rate(1, 1) + END
    yield 'refused_3_before_6_second_goal', START + END + goal(1)
    yield 'refused_3_before_7_behind_goal', deep_nots + END + formula(NOT, 11)
    yield 'refused_3_before_8_behind_goal', START + action(0, b'act') + END + action(0, b'act')
    yield 'refused_4_before_5_bit', START + bits + bit(2) + END
    yield 'refused_4_before_5_number', START + numbers + number(LARGEST + 1) + END
    yield 'refused_4_before_5_expression', START + expressions + expression(5, 0, 0) + END
    yield 'refused_4_before_5_formula', START + formulas + formula(10, 0, 0) + END
    yield 'refused_4_before_5_action', START + actions(64) + action(0, b'A') + END
    yield 'refused_4_before_5_bit_effect', START + effects(512) + set_bit(0, 0, 2) + END
    yield 'refused_4_before_5_number_effect', START + effects(512) + change(0, 3, 0, 0) + END
    yield 'refused_4_before_6_expression', START + expressions + expression(SUM, 1024, 0) + END
    yield 'refused_4_before_6_formula', START + formulas + formula(NOT, 1024) + END
    yield 'refused_4_before_6_action', START + actions(64) + action(1, b'act') + END
    yield 'refused_4_before_6_event', START + event(0) * 32 + event(1) + END
    yield 'refused_4_before_6_process', START + process(0) * 32 + process(1) + END
    yield 'refused_4_before_6_rate', START + rates(64) + rate(1, 0) + END
    yield 'refused_4_before_7_expression', deep_sums + constant(7) * 1012 + expression(SUM, 11, 11) + END
    yield 'refused_4_before_7_formula', deep_nots + formula(TRUE) * 1012 + formula(NOT, 11) + END
    yield 'refused_4_before_8_action', START + actions(64) + action(0, b'a0') + END
    yield 'refused_5_before_6_value', START + expression(VALUE_OF, 1, 1) + END
    yield 'refused_5_before_6_expression', START + expression(5, 1, 1) + END
    yield 'refused_5_before_6_formula', START + formula(10, 1, 1) + END
    yield 'refused_5_before_6_bit', START + formula(HOLDS, 1, 1) + END
    yield 'refused_5_before_6_comparison', START + formula(LESS, 1, 1) + END
    yield 'refused_5_before_6_not', START + formula(NOT, 1, 1) + END
    yield 'refused_5_before_6_action', START + action(1, b'A') + END
    yield 'refused_5_before_6_bit_effect', START + event(0) + set_bit(1, 1, 2) + END
    yield 'refused_5_before_6_number_effect', START + event(0) + change(1, 3, 1, 1) + END
    yield 'refused_5_before_7_not', deep_nots + formula(NOT, 11, 1) + END
    yield 'refused_5_before_7_operation', deep_sums + expression(5, 11, 11) + END
    yield 'refused_6_before_7_sum', deep_sums + expression(SUM, 11, 12) + END
    yield 'refused_6_before_7_product', deep_sums + expression(PRODUCT, 12, 11) + END
    yield 'refused_6_before_7_and', deep_nots + formula(AND, 11, 12) + END
    yield 'refused_6_before_7_or', deep_nots + formula(OR, 12, 11) + END
    yield 'refused_6_before_8_action', START + action(0, b'act') + action(1, b'act') + END
    # Two records that break a rule each: the earlier one is told.
    yield 'refused_6_before_an_earlier_question', START + event(1) + record(13, b'') + END
    yield 'refused_5_before_a_cut_record', head(0) + bit()[:-1]
    yield 'refused_8_before_a_second_head', START + action(0, b'act') + action(0, b'act') + head(0)


def examples():
    """The vat with its records in another order that is lawful too."""
    yield 'ok_vat_reordered', (head(5) + number(0) + bit(0) + expression(VALUE_OF, 0) + number(3) + formula(TRUE) + constant(30)
                               + formula(HOLDS, 0) + event(1) + bit(0) + set_bit(0, 0, 0) + expression(DIFFERENCE, 0, 1)
                               + set_bit(0, 1, 1) + expression(VALUE_OF, 1) + process(1) + formula(NOT, 1) + rate(0, 3)
                               + action(2, b'open') + set_bit(0, 0, 1) + formula(AT_LEAST, 2) + action(1, b'close')
                               + set_bit(0, 0, 0) + formula(AND, 3, 2) + goal(4))


def longest():
    """Only the first 60,000 bytes of a file count: a record that ends there is whole, one that is cut there is not."""
    yield 'refused_2_of_60000_bytes', record(13, bytes(59_996))
    yield 'refused_1_of_60001_bytes', record(13, bytes(59_997))


SORTS = (whole, kinds, order, limits, values, letters, rows, depths, new_names, goals, pairs, examples, longest)


def write_cases(folder):
    for old in folder.glob('*.rec'):
        if not old.name.startswith('case_'):
            old.unlink()
    made = []
    for sort in SORTS:
        for name, data in sort():
            assert name not in made, name
            made.append(name)
            (folder / f'{name}.rec').write_bytes(data)
    files = [f'{name}.rec' for name in made] + sorted(given.name for given in folder.glob('case_*.rec'))
    (folder / 'cases.txt').write_text(''.join(f'{name}\n' for name in files))


def write_vat(path):
    path.parent.mkdir(parents=True, exist_ok=True)
    path.write_bytes(vat())


if __name__ == '__main__':
    write_cases(ROOT / 'crates' / 'record_cases' / 'data')
    write_vat(ROOT / 'crates' / 'problem_show' / 'data' / 'problem.rec')
    write_vat(ROOT / 'examples' / 'vat' / 'problem.rec')
