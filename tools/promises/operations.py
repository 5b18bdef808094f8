"""The promises by operation, as the index lists them: contracts, then laws. A promise that is missing here is an error,
and so is a name here that is promised no longer."""

OPERATIONS = [
    ('Fresh', 'icotable_fresh icotable_atom_fresh', ''),
    ('Set', 'icotable_set icotable_atom_set', ''),
    ('Settle', 'icotable_settle icotable_atom_settle', 'reports atom_reports foretold atom_foretold'),
    ('Write', 'icotable_write icotable_write_tail icotable_atom_write', 'plain_write'),
    ('Lists of calls', '', 'promise atom_promise'),
    ('Sets in any order', '', 'any_order later within-runs twice_differs'),
    ('Calls played again', '', 'played_again atom_played_again equal_files replayed_file resumed_file '
     'atom_equal_files atom_replayed_file atom_resumed_file'),
    ('Read', 'icotable_read icotable_view icotable_atom_read', 'accepted_alike host-reads'),
    ('Locator', 'icotable_locator search_locator', ''),
    ('Reading', 'icotable_reading icotable_boltzmann icotable_readings icotable_atom_reading icotable_atom_boltzmann '
     'reading::lookup_all', ''),
    ('Tail', 'icotable_tail', ''),
    ('Span', 'icotable_span', 'bins_promise bins_rise energy_promise'),
    ('Sizing', 'icotable_sizing icotable_atom_sizing icotable_vertices icotable_cells',
     'longest reached fitting atom_longest atom_reached atom_fitting'),
    ('Search', 'search_find_nearest_vertex search_locate search_mesh icotable_search', 'search_promise'),
    ('Rows in words', 'icotable_rows_to_words icotable_words_to_rows', 'as_lists unchanged'),
    ('Repack', 'icotable_repack repack::repack', 'repacks packed-stays'),
    ('Root, fused multiply-add, narrowing', 'float_root float_mul_add float_narrow float_narrow_case float_narrow_all '
     'icotable_root icotable_mul_add icotable_narrow icotable_narrow_case', 'root_rounds by_case'),
    ('Exponential, logarithm, power', 'float_exp float_ln float_power icotable_exp icotable_ln icotable_power', ''),
    ('Other operations on numbers', 'float_is_finite float_widen float_floor float_ceiling float_to_u64 float_to_i64 '
     'float_of_u64 float_total_order float_max float_min float_abs float_rem_tau', ''),
]
