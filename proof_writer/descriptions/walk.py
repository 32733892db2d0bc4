"""walk: the walk of a run of siblings and the visit of a node, which call each other, and the visit of a leaf."""

LAWS = ['specs/Inner', 'proofs/Going', 'proofs/Visiting', 'proofs/Steps', 'reference_laws::proofs/Sizes', 'state::specs/Inner', 'tape::specs/Nodes']

WITH = '(visit-with (contextOf context₀) (entryOfInfo m₀) list₀ (req .0) (req .1) (req .3))'
VISIT = 'table₀ index₀ entries₀ source₀ tape₀ depth₀ (contextOf context₀) i₀ to₀ (entryOfInfo m₀) numbers₀ seen₀ opens₀ list₀ rec₀'
WHOLE = '(walkAt table₀ source₀ tape₀ (contextOf context₀) from₀ to₀ seen₀ opens₀ rec₀)'
WALK = 'table₀ index₀ entries₀ source₀ tape₀ depth₀ (contextOf context₀) from₀ to₀'
MARKER = '_ says-past-node _ says-kind-at test-kind-at _ says-marker-info'

WALKS = {
    'visit_leaf': dict(
        calls={
            'is_number': 'req .inside',
            'leaf': 'leafy-asks (req .leafy (sym says-is-number ∙ test-is-number))',
            'numbers_after': '(req .inside, req .leafy (sym says-is-number ∙ test-is-number) .rest)'},
        arms={
            'is_number': 'was-number (sym says-is-number ∙ test-is-number) (record { leaf = says-leaf; attached = says-numbers-after })',
            'end': 'was-other (sym says-is-number ∙ test-is-number)'}),
}

visit = dict(
    calls={
        'can_skip_marker': f'(req .2, visit-below {WITH}, visit-children {WITH})',
        'visit_marker': f'(req .2, visit-run {WITH}, req .1 .more, req .1 .opened, req .1 .attached, own-room {WITH})',
        'milestone': f'steppable {WITH} _ _ says-visit-marker',
        'link_at': 'visit-below (after-paired .1 .visit)',
        'can_skip_children': 'inner-run (after-paired .1) _ says-link-at',
        'walk': dict(requires='inner-asks after-inner', less='inner-less after-inner')},
    sums={'i + 1': 'next-fits (after-paired .1 .visit)',
          'depth - 1': 'visit-deep (after-can-skip-children .3 .visit)'},
    cuts={
        'paired': dict(
            values='before paired opens list',
            holds=f'($before ≡ rec₀) × (Entered {VISIT} $list $opens $paired)',
            reached=f'(refl, enters {WITH} _ _ says-visit-marker _ _ _ len-milestone-opens says-milestone)'),
        'can_skip_children': dict(
            values='before paired from link opens list',
            holds=f'($before ≡ rec₀) × ($from ≡ i₀ + 1) × ($link ≡ linkAt tape₀ i₀) × (Entered {VISIT} $list $opens $paired)',
            reached='(after-paired .0, refl, says-link-at, after-paired .1)'),
        'inner': dict(
            values='before paired from link deeper inner rec opens list',
            holds=f'Inner {VISIT} $list $opens $paired $before $rec $from $link $deeper (contextOf $inner)',
            reached='record { whole = after-can-skip-children .3; before = after-can-skip-children .0; now-is = says-with-anchor-2; from-is = after-can-skip-children .1; link-is = after-can-skip-children .2; deeper = refl; context = says-inside }')},
    arms={
        'can_skip_marker': f'visited-skipped {WITH} _ says-can-skip-marker test-can-skip-marker',
        'can_skip_children': 'visited-still (after-paired .1) _ says-link-at _ says-can-skip-children test-can-skip-children _ _ (after-paired .0) says-with-anchor',
        'end': 'visited-whole after-inner _ _ _ _ says-walk _ says-with-anchor-3'})

walk = dict(
    calls={
        'anchored': '(req .0 .accepted, req .0 .nested, req .0 .within, req .0 .anchored)',
        'past_node': 'going-below kept test-while',
        'kind_at': 'going-below kept test-while',
        'visit_leaf': 'passable kept test-while _ says-past-node',
        'marker_info': '(kept .ready .indexed, going-below kept test-while)',
        'visit': dict(requires=f'visit-asks kept test-while {MARKER} _ told-marker-info', less='same-depth _')},
    cuts={
        'numbers': dict(
            values='numbers',
            holds='startsOf $numbers ≡ startsFor (anchorOf source₀ tape₀ (rec₀ .anchor) from₀) (forest source₀ tape₀ from₀ to₀)',
            reached='says-anchored')},
    loop=dict(
        changes='i numbers rec seen opens list',
        keeps=f'Going {WALK} {WHOLE} list₀ rec₀ $seen $opens $list $rec $numbers $i',
        measure='to₀ - $i',
        start=f'going-start {WALK} seen₀ opens₀ list₀ rec₀ _ (req .0) (req .1) after-numbers',
        again={
            'not kind_at': 'going-past-leaf kept test-while _ says-past-node _ says-kind-at test-kind-at _ _ _ _ len-visit-leaf-seen says-visit-leaf',
            'kind_at, Known': f'going-visited kept test-while {MARKER} _ told-marker-info _ _ _ _ len-visit-seen len-visit-opens says-visit',
            'kind_at, Missing': f'going-passed-over kept test-while {MARKER} told-marker-info'},
        less='going-nearer kept test-while _ says-past-node'),
    returns='going-end kept test-while')

CYCLES = [({'visit': '2 * $depth', 'walk': '2 * $depth + 1'}, {'visit': visit, 'walk': walk})]
