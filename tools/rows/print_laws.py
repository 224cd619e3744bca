"""Prints the laws of crates/es_rows: a function for each group of worked rows, and one for each group of witnesses, with their answers.

    python3 tools/rows/print_laws.py crates/es_rows
"""
import json, os, re, sys

HERE = os.path.dirname(os.path.abspath(__file__))
CRATE = sys.argv[1]
rows = [r for f in ('rows.json', 'forms.json') for r in json.load(open(f'{HERE}/{f}'))]


def module(name):
    return ''.join(w.capitalize() for w in name.split('_'))


# the group of a row: what it shows
def group(r):
    n, options = r['name'], r['options']
    if 'chain' in n or 'optional' in n:
        return 'private_chains_keep_their_meaning'
    if '--class-properties' not in options:
        return 'static_blocks_alone_keep_their_meaning'
    if 'private' in n and 'loose' not in n:
        return 'private_members_keep_their_meaning'
    if 'super' in n or 'derived' in n or n == 'names_taken':
        return 'derived_classes_keep_their_meaning'
    if 'static' in n or 'block' in n or n == 'deleted_this':
        return 'static_elements_keep_their_meaning'
    return 'instance_fields_keep_their_meaning'


SAYS = {
    'instance_fields_keep_their_meaning': 'Instance fields and their keys, defined and set, and what is kept as a property.',
    'derived_classes_keep_their_meaning': 'Classes with a heritage: where fields stand behind `super(..)`, and `super` members.',
    'static_elements_keep_their_meaning': 'Static fields and blocks, and names of the class.',
    'private_members_keep_their_meaning': 'Private fields, methods and accessors, static and not, in all their uses.',
    'private_chains_keep_their_meaning': 'Private names in optional chains.',
    'static_blocks_alone_keep_their_meaning': 'Static blocks where class fields are not lowered.',
}


def write(path, text):
    os.makedirs(os.path.dirname(path), exist_ok=True)
    open(path, 'w').write(text)


def answers(function, clauses):
    lines = ['use Rattle.std.specs.Prelude.{refl}']
    if any('lowered' in proof for name, proof in clauses):
        lines += ['use Rattle.es_rows.proofs.Computed.{lowered}']
    lines += [f'use Rattle.es_rows.proofs.law.{function}.Goals as goal', '']
    for name, proof in clauses:
        lines += [f'pub returns-clause-{name} : goal.returns-clause-{name}', f'returns-clause-{name} c = {proof}', '']
    write(f'{CRATE}/proofs/law/{function}/Answers.antt', '\n'.join(lines[:-1]) + '\n')


uses, functions = [], []
groups = {}
for r in rows:
    groups.setdefault(group(r), []).append(r)
for function in SAYS:
    lines, proofs = [], []
    for r in groups[function]:
        n, outside = r['name'], r.get('outside') or []
        uses.append(f'ghost use Rattle.es_rows.specs.rows.{module(n)}.{{source_{n}, output_{n}, generated_{n}, options_{n}, outside_{n}}};')
        if outside in ([], [8]):
            word, proof = 'Kept', '(refl, refl, lowered refl, refl)'
        elif outside == [2]:
            word, proof = 'KeptAfter', '(refl, refl, lowered refl, refl)'
        else:
            word, proof = 'Owed', '(lowered refl, refl)'
        lines.append(f'    ensures {n} {{ {word} options_{n} generated_{n} source_{n} output_{n} outside_{n} }}')
        proofs.append((n, proof))
    functions.append(f'/// {SAYS[function]}\npub fn {function}()\n' + '\n'.join(lines) + '\n{}\n')
    answers(function, proofs)

# witnesses whose output does not meet a clause; where it is not that of the definitions, the meanings are equal or are not asked
LISTS = 'lists_kept options_{n} source_{n} output_{n}'
DEFINED = 'definitions_stand (nodes source_{n}) options_{n} generated_{n} (private_members source_{n}) source_{n} output_{n}'
TIMELY = 'names_timely (nodes source_{n}) generated_{n} (private_members source_{n}) output_{n}'
CALLS = 'helper_calls_fit (nodes source_{n}) generated_{n} (keys_that_stay (nodes source_{n}) generated_{n} source_{n} output_{n}) output_{n}'
HOMES = 'homes_kept (nodes source_{n}) options_{n} source_{n} output_{n}'
PRINTABLE = 'is_printable output_{n}'
PRINTED = 'stays_printable source_{n} output_{n}'
NAMED = 'names_declared (nodes source_{n}) generated_{n} output_{n}'
STEADY = 'temporaries_steady (nodes source_{n}) generated_{n} (private_members source_{n}) output_{n}'
INITIALIZED = 'initializations_stand (nodes source_{n}) generated_{n} source_{n} output_{n} generated_{n}'
ACCOUNTED = 'declarations_accounted (nodes source_{n}) generated_{n} source_{n} output_{n}'
STRICT = 'none_becomes_strict (nodes source_{n}) source_{n} output_{n}'
TEXTS = 'texts_stay (nodes source_{n}) source_{n} output_{n}'
OWN_NAMES = 'own_names_stay generated_{n} source_{n} output_{n}'
CARRIERS = 'numbers_carried (nodes source_{n}) source_{n} output_{n}'
REFERENCES = 'references_stay (nodes source_{n}) options_{n} generated_{n} source_{n} output_{n}'
NOT_MET = {
    'temporary_given_again': STEADY,
    'temporary_given_again_in_a_loop': STEADY,
    'temporary_of_a_hoisted_function': STEADY,
    'parameter_read_later': STEADY,
    'temporary_of_the_program': STEADY,
    'method_given_behind_its_calls': INITIALIZED,
    'super_function_behind_a_call': TIMELY,
    'class_temporary_of_another_case': TIMELY,
    'body_in_an_arrow': HOMES,
    'block_without_a_function': HOMES,
    'parameter_renamed': HOMES,
    'map_made_in_a_branch': TIMELY,
    'let_of_another_case': TIMELY,
    'accessor_given_behind_a_key': TIMELY,
    'default_export_behind_a_call': REFERENCES,
    'default_value_behind_a_call': REFERENCES,
    'default_class_expression_under_a_name': REFERENCES,
    'class_in_front_of_what_its_heritage_reads': REFERENCES,
    'class_in_front_of_what_its_key_reads': REFERENCES,
    'key_in_front_of_what_it_reads': REFERENCES,
    'this_in_front_of_super': REFERENCES,
    'this_in_front_of_an_arrow_with_super': REFERENCES,
    'class_in_front_of_an_await': REFERENCES,
    'class_out_of_a_branch': REFERENCES,
    'this_in_a_new_constructor': REFERENCES,
    'this_in_an_arrow': REFERENCES,
    'class_name_in_front_of_an_await': REFERENCES,
    'reading_that_is_new': REFERENCES,
    'class_out_of_a_chain': REFERENCES,
    'this_out_of_an_arrow': REFERENCES,
    'reading_of_another_function': REFERENCES,
    'name_of_a_key_in_front_of_an_await': REFERENCES,
    'class_in_front_of_a_return': REFERENCES,
    'call_in_the_let_of_a_class': REFERENCES,
    'own_name_that_becomes_a_let': REFERENCES,
    'directive_behind_a_name': PRINTABLE,
    'strict_default_export_with_a_pattern': PRINTED,
    'conversion_of_a_key_of_an_object_left_out': CALLS,
    'conversion_of_arguments_elsewhere': CALLS,
    'conversion_of_another_new_target': CALLS,
    'conversion_of_a_class_for_this': CALLS,
    'strict_rest': PRINTABLE,
    'name_without_a_sign': NAMED,
    'conversion_of_no_key': CALLS,
    'name_of_a_named_class': CALLS,
    'untested_name_of_a_class': CALLS,
    'function_out_of_its_block': LISTS,
    'class_in_a_constructor': LISTS,
    'class_behind_its_use': LISTS,
    'super_function_behind_its_calls': TIMELY,
    'weak_map_in_another_function': TIMELY,
    'method_assigned_in_another_function': TIMELY,
    'class_temporary_before_its_class': TIMELY,
    'closure_before_its_class': TIMELY,
    'dead_temporary': TIMELY,
    'field_of_a_written_class_dropped': DEFINED,
    'field_of_a_written_class_doubled': DEFINED,
    'fields_of_a_written_class_exchanged': DEFINED,
    'another_literal_of_a_written_class': DEFINED,
    'elements_of_a_written_class_dropped': DEFINED,
    'body_dropped': DEFINED,
    'break_in_an_arrow': PRINTABLE,
    'hidden_body': 'conforms Place.Program output_{n}',
    'constant_temporary': ACCOUNTED,
    'private_name_twice': NAMED,
    'name_twice': NAMED,
    'name_of_no_member': INITIALIZED,
    'two_maps': NAMED,
    'two_functions': NAMED,
    'two_brands': NAMED,
    'temporary_given_again_in_a_branch': INITIALIZED,
    'temporary_given_again_in_a_round': INITIALIZED,
    'key_given_again': INITIALIZED,
    'map_made_in_a_pattern': TIMELY,
    'map_made_in_a_called_arrow': TIMELY,
    'closure_called_in_a_key': TIMELY,
    'class_temporary_in_its_class': TIMELY,
    'unconverted_name_of_a_class': CALLS,
    'name_given_in_a_closure': CALLS,
    'break_in_an_arrow_beside_await': PRINTED,
    'own_name_that_is_meant': ACCOUNTED,
    'declaration_without_its_name': OWN_NAMES,
    'name_of_a_class_with_a_block': CALLS,
    'strict_arrow': STRICT,
    'declarator_in_a_const': ACCOUNTED,
    'name_in_a_static_block': 'classes_kept (nodes source_{n}) source_{n} output_{n}',
    'raw_of_a_template': TEXTS,
    'raw_of_a_string': TEXTS,
    'function_in_a_class': STRICT,
    'name_given_behind_a_field': CALLS,
    'let_out_of_its_block': LISTS,
    'pattern_of_no_regular_expression': TEXTS,
    'flags_of_no_regular_expression': TEXTS,
    'number_that_strict_code_has_not': TEXTS,
    'copy_of_a_number': TEXTS,
    'character_of_no_name': TEXTS,
    'private_name_of_another_member': TEXTS,
    'private_name_constructor': TEXTS,
    'text_of_a_directive': TEXTS,
    'uncooked_template': PRINTED,
    'declaration_of_nothing': PRINTED,
    'declaration_without_its_names': PRINTED,
    'string_that_a_printer_makes_a_directive': PRINTED,
    'yield_in_a_generator': PRINTED,
    'await_in_an_async_function': PRINTED,
    'await_in_a_static_block': PRINTED,
    'let_in_strict_code': PRINTED,
    'arguments_in_a_static_block': PRINTED,
    'arguments_of_a_static_field': PRINTED,
    'class_named_eval': PRINTED,
    'class_named_arguments': PRINTED,
    'class_named_let': PRINTED,
    'class_named_await_in_an_async_function': PRINTED,
    'declaration_without_its_name_in_a_method': OWN_NAMES,
    'let_read_in_its_value': OWN_NAMES,
    'let_behind_a_constructor': TIMELY,
    'let_behind_a_field': TIMELY,
    'let_behind_an_arrow': TIMELY,
    'class_temporary_of_a_function_expression': INITIALIZED,
    'map_of_a_function_expression': INITIALIZED,
    'map_outside_of_a_called_function': TIMELY,
    'map_outside_of_a_private_method': TIMELY,
    'closure_given_behind_its_call': TIMELY,
    'brand_outside_of_a_called_function': TIMELY,
    'key_outside_of_a_called_function': TIMELY,
    'method_outside_of_a_called_function': TIMELY,
    'own_name_in_a_heritage': TIMELY,
    'own_name_in_a_key': TIMELY,
    'regular_expression_read_twice': STEADY,
    'nothing_declared_behind_a_string': PRINTED,
    'nothing_declared_behind_a_directive': PRINTED,
    'nothing_declared_behind_a_bigint': PRINTED,
    'second_string_that_a_printer_makes_a_directive': PRINTED,
    'block_in_front_of_its_class': REFERENCES,
    'value_in_front_of_its_class': REFERENCES,
    'class_out_of_a_block': REFERENCES,
    'arrow_out_of_a_block': REFERENCES,
    'class_in_front_of_a_let': REFERENCES,
    'map_made_in_each_round': STEADY,
    'closure_given_in_each_round': STEADY,
    'map_behind_a_key': TIMELY,
    'class_asked_for_in_its_key': REFERENCES,
    'key_kept_by_a_call': CALLS,
    'key_of_another_member': CALLS,
    'write_behind_a_pattern': REFERENCES,
    'super_function_outside_of_a_function': REFERENCES,
    'copied_regular_expression': TEXTS,
    'unconverted_kept_key': CALLS,
    'let_read_in_a_method': OWN_NAMES,
    'class_read_while_its_block_runs': REFERENCES,
    'map_made_in_a_block': TIMELY,
    'class_named_behind_its_block': REFERENCES,
    'private_method_in_front_of_its_class': REFERENCES,
    'private_method_outside_of_a_function': REFERENCES,
    'let_behind_a_call': TIMELY,
    'new_target_outside': PRINTABLE,
    'copied_octal_escape': TEXTS,
    'name_that_begins_as_none': TEXTS,
    'map_behind_a_key_that_asks': INITIALIZED,
    'class_temporary_behind_a_called_arrow': INITIALIZED,
    'class_temporary_behind_a_called_method': INITIALIZED,
    'arrow_that_an_assignment_hands_on': REFERENCES,
    'arrow_with_the_name_of_a_key': REFERENCES,
    'closure_with_the_name_of_a_key': REFERENCES,
    'arrow_with_the_name_of_an_argument': REFERENCES,
    'argument_in_front_of_its_class': REFERENCES,
    'class_named_in_front_of_it': REFERENCES,
    'class_named_in_front_of_another': REFERENCES,
    'conversion_in_a_key': CALLS,
    'conversion_in_front_of_a_key': CALLS,
    'conversion_in_front_of_a_named_class': CALLS,
    'conversion_of_a_class_that_a_key_names': CALLS,
    'private_element_of_the_class_around': STEADY,
    'property_with_the_number_of_a_block': CARRIERS,
    'conversion_with_the_number_of_a_key': CARRIERS,
    'constant_with_the_numbers_of_fields': CARRIERS,
    'declaration_with_the_numbers_of_fields': CARRIERS,
    'const_without_a_value': PRINTED,
    'const_beside_await_in_an_arrow': PRINTED,
    'pattern_without_a_value': PRINTED,
    'label_twice': PRINTED,
    'await_in_a_function_that_nothing_calls': STEADY,
    'super_in_a_function_that_nothing_calls': STEADY,
    'call_in_a_super_function_that_nothing_calls': DEFINED,
    'label_behind_an_error': CARRIERS,
    'prototypes_behind_an_error': CARRIERS,
    'super_call_in_a_super_function_that_nothing_calls': REFERENCES,
    'setter_in_a_super_function_that_nothing_calls': CARRIERS,
    'getter_behind_an_error': CARRIERS,
    'super_function_that_nothing_calls_outside': REFERENCES,
    'super_function_of_a_static_block': DEFINED,
    'prototypes_exchanged_behind_an_error': CARRIERS,
    'defaults_exchanged_behind_an_error': CARRIERS,
    'handler_exchanged_behind_an_error': CARRIERS,
    'heads_exchanged_behind_an_error': CARRIERS,
    'rests_exchanged_behind_an_error': CARRIERS,
    'awaiting_loop_behind_an_error': CARRIERS,
    'delegation_behind_an_error': CARRIERS,
    'handler_dropped_behind_an_error': CARRIERS,
    'test_dropped_behind_an_error': CARRIERS,
    'label_word_behind_an_error': CARRIERS,
    'import_meta_behind_an_error': CARRIERS,
    'initialized_head_behind_an_error': CARRIERS,
    'names_of_a_head_behind_an_error': CARRIERS,
    'prototype_key_behind_an_error': CARRIERS,
    'computed_key_behind_an_error': CARRIERS,
    'awaiting_loop_out_of_its_function': CARRIERS,
    'prototype_of_a_shorthand': CARRIERS,
    'names_of_an_initialized_head': CARRIERS,
    'labelled_function_in_a_branch': CARRIERS,
    'body_in_a_block': CARRIERS,
    'question_on_a_static_field': CARRIERS,
    'label_in_an_async_function': CARRIERS,
    'export_of_a_call': CARRIERS,
    'export_in_a_block': CARRIERS,
    'new_label_behind_an_error': CARRIERS,
    'prototype_by_exchanged_names_behind_an_error': CARRIERS,
    'shorthand_of_an_operator': CARRIERS,
    'map_without_class_properties': DEFINED,
    'await_in_parameters': CARRIERS,
    'arguments_in_a_field': PRINTABLE,
    'undeclared_private_name': REFERENCES,
    'super_function_without_fields': DEFINED,
    'closure_called_twice': STEADY,
    'name_of_another_character': TEXTS,
    'yield_in_another_function': CARRIERS,
    'conversion_of_a_name_with_the_number_of_a_key': CALLS,
    'conversion_of_a_name_of_that_spelling': CALLS,
    'conversion_of_a_sequence_with_the_number_of_a_key': CALLS,
    'conversion_of_this_with_the_number_of_a_key': CALLS,
    'call_of_eval_by_its_name': CARRIERS,
    'delete_of_a_private_property': CARRIERS,
    'call_of_a_private_element': CARRIERS,
    'tag_of_a_private_element': CARRIERS,
    'delete_of_a_name_behind_a_throw': CARRIERS,
    'conversion_of_a_call_for_an_assignment': CALLS,
    'conversion_of_a_call_for_a_read_that_throws': CALLS,
    'key_kept_beside_a_conversion': CALLS,
    'key_kept_by_a_logical_assignment': CALLS,
    'key_kept_by_an_assigned_function': CALLS,
    'name_given_behind_a_call': CALLS,
    'test_of_a_member_of_the_source': CALLS,
    'conversion_of_a_private_element': CALLS,
    'super_addition_that_becomes_strict': CARRIERS,
    'super_update_that_becomes_strict': CARRIERS,
    'super_logical_assignment_that_becomes_strict': CARRIERS,
    'class_updated_by_a_temporary': REFERENCES,
    'class_updated_by_a_temporary_beside_a_field': REFERENCES,
    'arrow_in_the_head_of_a_loop': REFERENCES,
    'key_of_a_class_in_front_of_its_heritage': REFERENCES,
    'name_in_front_of_a_conversion_in_a_template': REFERENCES,
    'this_in_front_of_the_conversion_of_a_key': REFERENCES,
    'name_in_front_of_a_class_declaration': REFERENCES,
    'name_in_front_of_a_default_export': REFERENCES,
    'name_of_a_class_that_goes_nowhere': REFERENCES,
    'name_in_front_of_a_write_that_throws': REFERENCES,
    'name_in_front_of_a_class_that_names_itself': REFERENCES,
    'name_in_front_of_a_definition': REFERENCES,
    'name_in_front_of_the_fields': REFERENCES,
    'name_of_a_key_in_a_constructor': REFERENCES,
    'name_in_front_of_a_function_in_a_block': REFERENCES,
    'name_of_a_pattern_in_front_of_its_key': REFERENCES,
    'this_of_a_static_arrow': REFERENCES,
    'name_in_front_of_a_write_behind_a_sum': REFERENCES,
    'closure_called_in_one_that_was_not_run': REFERENCES,
}
# of those that the clause on definitions finds: whose meaning is that of the source
MEANT = ('call_in_a_super_function_that_nothing_calls', 'super_function_of_a_static_block', 'map_without_class_properties', 'super_function_without_fields')
# the shapes of the two programs
SHAPES = {'regular_expression_before_a_heritage': ('1 ∷ []', '[]'), 'changing_key_before_a_regular_expression': ('4 ∷ []', '[]'), 'block_beside_a_field_outside': ('3 ∷ []', '[]'), 'loose_member_read_once': ('[]', '4 ∷ []'), 'super_key_that_stays': ('[]', '4 ∷ []'), 'suspended_class_written': ('6 ∷ []', '[]'), 'imported_object': ('4 ∷ []', '[]'), 'imported_key': ('4 ∷ []', '[]'), 'imported_key_of_a_method': ('4 ∷ []', '[]'), 'key_that_a_function_in_a_block_gives': ('4 ∷ []', '[]'), 'caught_key': ('4 ∷ []', '[]'), 'key_that_a_branch_gives': ('4 ∷ []', '[]'), 'key_that_a_catch_gives': ('4 ∷ []', '[]'), 'imported_key_behind_a_block': ('4 ∷ []', '[]'), 'changing_key_behind_a_block': ('4 ∷ []', '[]'), 'key_that_is_arguments': ('4 ∷ []', '[]'), 'key_that_is_a_parameter_arguments': ('4 ∷ []', '[]')}
# outputs that mean what their sources mean
RIGHT = ('private_name_beside_a_name', 'branch_of_a_key', 'class_in_a_case', 'key_of_a_binding_for_a_name', 'function_named_by_an_element')
# outputs that owe nothing either
OWING_NOTHING = ('number_as_a_key', 'static_key_that_is_a_constant', 'method_around_a_class_without_elements', 'static_field_that_takes_a_block', 'template_that_is_copied', 'class_named_by_a_key_of_an_object', 'class_named_by_a_number_of_an_object', 'class_with_the_name_of_a_prototype', 'tested_name_of_a_class', 'block_of_a_binding', 'own_name_that_nothing_means', 'strict_function_of_a_method', 'block_of_an_arrow', 'class_named_await', 'class_that_suspends', 'classes_that_suspend', 'nameless_class_that_suspends', 'string_in_parentheses', 'directive_with_an_escape', 'hexadecimal_bigint', 'let_in_front_of_a_function', 'private_method_that_reads_a_field', 'private_method_that_reads_itself', 'static_private_method_that_reads_a_field', 'map_in_front_of_a_key_that_asks', 'arrow_that_names_await', 'regular_expression_as_a_key', 'regular_expression_as_a_static_key', 'tests_of_two_keys', 'class_in_a_closure', 'block_that_names_another_class', 'private_field_of_a_named_class', 'class_in_a_super_function', 'private_method_of_a_class_in_a_branch', 'super_function_in_front_of_a_map', 'private_method_behind_a_class', 'converted_assignment', 'converted_sequence', 'argument_behind_a_throw', 'class_in_the_head_of_a_loop', 'logical_write_to_a_private_method', 'compound_write_to_a_private_method', 'name_in_a_field_behind_two_calls_of_super', 'super_in_an_arrow_in_front_of_an_argument', 'class_in_the_constructor_of_a_class_in_a_parameter')
# wrong outputs that have a meaning, and those of programs whose parameters come before their fields
OTHER = ('branch_of_a_key_of_another', 'elements_dropped', 'static_field_dropped', 'block_dropped', 'block_behind_a_kept_field', 'read_moved', 'import_read_early', 'statements_of_a_case_exchanged', 'statement_of_another_case', 'arrow_moved_into_parameters', 'functions_of_a_block_exchanged', 'default_function_expression', 'let_out_of_a_head', 'conversions_of_a_template', 'let_beside_a_caught_name', 'arguments_of_a_function_around', 'question_for_another_field', 'regular_expression_of_another_argument', 'regular_expressions_exchanged')
AFTER = ('field_behind_parameters_dropped', 'field_behind_parameters_doubled', 'fields_behind_parameters_exchanged', 'another_literal_behind_parameters')
pairs, wrong, kept, not_met, shaped, right, owing_nothing, other, after = [], [], [], [], [], [], [], [], []
folder = f'{CRATE}/specs/witnesses'
for f in sorted(os.listdir(folder)):
    text = open(f'{folder}/{f}').read()
    n = re.search(r'abbrev pub options_(\w+)', text).group(1)
    if f'first_{n} ' in text:
        uses.append(f'ghost use Rattle.es_rows.specs.witnesses.{f[:-5]}.{{first_{n}, second_{n}, options_{n}}};')
        if n in SHAPES:
            shaped.append((n, f'HaveShapes options_{n} first_{n} ({SHAPES[n][0]}) second_{n} ({SHAPES[n][1]})'))
        elif n in ('key_of_a_method', 'class_named_otherwise'):
            kept.append((n, f'source_means options_{n} second_{n} ≡ source_means options_{n} first_{n}'))
        else:
            pairs.append((n, f'TellsApart options_{n} first_{n} second_{n}'))
    elif f'output_{n} ' in text:
        uses.append(f'ghost use Rattle.es_rows.specs.witnesses.{f[:-5]}.{{source_{n}, output_{n}, generated_{n}, options_{n}}};')
        if n in NOT_MET:
            not_met.append((n, NOT_MET[n].format(n=n) + ' ≡ false'))
            if NOT_MET[n] == DEFINED and n not in MEANT:
                wrong.append((n, f'Refused options_{n} generated_{n} source_{n} output_{n}'))
        elif n in RIGHT:
            right.append((n, f'Means options_{n} generated_{n} source_{n} output_{n}'))
        elif n in OWING_NOTHING:
            owing_nothing.append((n, f'Kept options_{n} generated_{n} source_{n} output_{n} []'))
        elif n in OTHER:
            other.append((n, f'MeansOther options_{n} generated_{n} source_{n} output_{n}'))
        elif n in AFTER:
            after.append((n, f'RefusedAfter options_{n} generated_{n} source_{n} output_{n}'))
        else:
            wrong.append((n, f'Refused options_{n} generated_{n} source_{n} output_{n}'))


def listed(function, says, clauses, proof):
    functions.append(f'/// {says}\npub fn {function}()\n' + '\n'.join(f'    ensures {n} {{ {t} }}' for n, t in clauses) + '\n{}\n')
    answers(function, [(n, proof) for n, t in clauses])


listed('programs_are_told_apart', 'Pairs of programs that share their numbers and behave differently, or differ in what stands behind a throw, have meanings that differ.', pairs, '(refl, refl, refl)')
listed('wrong_outputs_are_told_apart', 'Wrong outputs of worked rows do not mean what their sources mean.', wrong, 'refl')
listed('wrong_outputs_mean_another_program', 'Wrong outputs of worked rows that have a meaning, which is not that of their sources.', other, '(refl, refl)')
listed('wrong_outputs_behind_parameters_are_told_apart', 'Wrong outputs of a program whose parameters come before its fields do not mean what it then means.', after, '(refl, refl)')
listed('clauses_are_not_met', 'Wrong outputs that a clause on lowered programs finds, though their meanings may be those of their sources.', not_met, 'refl')
listed('outputs_mean_their_sources', 'Outputs that mean what their sources mean, though a name or a value in them looks like another one.', right, '(refl, refl)')
listed('outputs_owe_nothing', 'Outputs that mean what their sources mean and owe nothing, though they look like wrong ones.', owing_nothing, '(refl, refl, lowered refl, refl)')
listed('shapes_are_told', 'Pairs of programs that have different shapes.', shaped, '(refl, refl)')
listed('the_same_in_other_words', 'A template and a string are one key; the own name of a class is no step.', kept, 'refl')

text = '''// Worked rows and witnesses: functions that do nothing. Printed by tools/rows/print_laws.py.

ghost use Rattle.std.specs.Prelude.{◌≡◌, [], ◌∷◌, false};
ghost use Rattle.es_rows.specs.Owed.{Kept, KeptAfter, Owed, TellsApart, Refused, MeansOther, RefusedAfter, Means, HaveShapes};
ghost use Rattle.es_lowered.specs.Carriers.{numbers_carried};
ghost use Rattle.es_lowered.specs.Definitions.{definitions_stand};
ghost use Rattle.es_base.specs.Conforms.{conforms};
ghost use Rattle.es_base.specs.Preorder.{nodes, preorder};
ghost use Rattle.es_base.specs.declared.table.Place.{Place};
ghost use Rattle.es_lowered.specs.HelperCalls.{helper_calls_fit};
ghost use Rattle.es_lowered.specs.KeptKeys.{keys_that_stay};
ghost use Rattle.es_steps.specs.KeptNodes.{classes_kept, lists_kept, homes_kept};
ghost use Rattle.es_lowered.specs.Lowered.{names_declared, declarations_accounted, initializations_stand};
ghost use Rattle.es_steps.specs.Meaning.{source_means};
ghost use Rattle.es_lowered.specs.KeptReferences.{references_stay};
ghost use Rattle.es_lowered.specs.OwnNames.{own_names_stay};
ghost use Rattle.es_steps.specs.Printable.{is_printable, stays_printable};
ghost use Rattle.es_steps.specs.PrivateNames.{private_members};
ghost use Rattle.es_steps.specs.Strict.{none_becomes_strict};
ghost use Rattle.es_lowered.specs.Temporaries.{temporaries_steady};
ghost use Rattle.es_lowered.specs.Texts.{texts_stay};
ghost use Rattle.es_lowered.specs.Timely.{names_timely};
''' + '\n'.join(uses) + '\n\n' + '\n'.join(functions)
write(f'{CRATE}/src/law.rt', text)
witnesses = {n for group in (pairs, wrong, kept, not_met, shaped, right, owing_nothing, other, after) for n, _ in group}
print(f'{len(rows)} rows, {len(witnesses)} witnesses')
