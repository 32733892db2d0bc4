"""milestones: the open starts, a lent list of records."""

LAWS = ['specs/Inner', 'specs/InnerStep', 'proofs/Search', 'proofs/Moves', 'proofs/Whole', 'proofs/Pairing', 'reference_laws::proofs/Sizes', 'definition::specs/Outcome']
DEFAULTS = {'OpenStart': 'noStart'}

BASE = '(baseAt source₀ at₀ len₀)'
PAIR = 'source₀ tape₀ opens₀ k₀ step₀'
END_INSIDE = f'end-inside {PAIR} _ _ told-step _ (says-nearest .1) _ told-nearest'
MILESTONE = '(entryOfInfo m₀) source₀ tape₀ i₀ opens₀ list₀ rec₀ (req .known) (stepMeans source₀ (z-step-of .0)) (says-step-of .0)'

WALKS = {
    'push': dict(
        inside={'opens[k]': 'req'},
        returns='refl'),

    'remove': dict(
        sums={'k - 1': 'first-of _ _ (req .0)',
              'i + 1': 'more-fits _ _ _ (here-inside _ _ _ test-while (req .1)) opens-n (opens-room .0)'},
        inside={'opens[next]': 'next-inside _ _ _ test-while (req .1)',
                'opens[i]': 'here-inside _ _ _ test-while (req .1)'},
        loop=dict(
            changes='i opens',
            keeps='Moving opens₀ at₀ (k₀ - 1) $opens $i',
            measure='(k₀ - 1) - $i',
            start='moving-start _ _ _ (moves-first _ _ (req .0)) (moves-room _ _ _ (req .0) (req .1))',
            again='moving-turn _ _ _ _ _ kept test-while',
            less='nearer _ _ test-while'),
        returns='moving-end _ _ _ _ _ kept test-while'),

    'nearest': dict(
        sums={'j - 1': 'test-while'},
        inside={'opens[j]': 'inside _ _ _ _ (req .0) _ test-while (kept .0)'},
        calls={'has_base': '(entry-fits _ _ _ _ (req .0) _ test-while (kept .0), req .1)'},
        loop=dict(
            changes='j',
            keeps=f'($j ≤ k₀) × (nearestIn source₀ tape₀ opens₀ k₀ {BASE} ≡ nearestIn source₀ tape₀ opens₀ $j {BASE})',
            measure='$j',
            start='(omega arith, refl)',
            again='(omega (arith, kept .0), kept .1 ∙ miss _ _ _ _ _ test-while _ says-has-base test-has-base)',
            less='omega (arith, test-while)'),
        arms={
            'has_base': '(refl, sym (kept .1 ∙ hit _ _ _ _ _ test-while _ says-has-base test-has-base))',
            'end': '(refl, sym (kept .1 ∙ nowhere _ _ _ _ _ test-while))'}),

    'pair': dict(
        sums={'k + 1': 'more-fits _ _ _ (req .1) opens-n (opens-room .0)',
              'k - 1': f'first-of _ _ ({END_INSIDE})'},
        calls={
            'push': 'req .1',
            'nearest': f'(req .0, placed {PAIR} _ _ told-step (req .2))',
            'remove': f'({END_INSIDE}, known-room source₀ tape₀ opens₀ $opens k₀ (req .0) len-nearest-opens)'},
        arms={
            'Start': f'pair-start {PAIR} _ _ told-step says-push',
            'End, At': f'pair-end {PAIR} _ _ told-step _ (says-nearest .1) _ _ _ (says-nearest .0) told-nearest says-remove',
            'End, Nothing': f'pair-alone {PAIR} _ _ told-step _ (says-nearest .1) _ (says-nearest .0) told-nearest',
            'Neither': f'pair-neither {PAIR} told-step'}),

    'milestone': dict(
        calls={
            'step_of': '(req .spanned, req .low)',
            'pair': '(req .known, req .more, says-step-of .1)',
            'after_pair': f'(req .spanned .inside, countable {MILESTONE} (openAfterPair (z-pair .0)) (says-pair .1) (req .room))'},
        returns=f'milestoned {MILESTONE} (req .spanned) (req .more) _ (says-pair .0) len-pair-opens (openAfterPair (z-pair .0)) (says-pair .1) _ _ says-after-pair'),
}
