"""validate: the entry `check`, and what it makes of a document that no number turns back."""

LAWS = ['specs/Entry', 'proofs/Course', 'proofs/Through', 'reference_laws::proofs/Sizes', 'tape::proofs/OneNumber', 'state::specs/Inner']

BEGUN = 'req (z-link-at .0) says-link-at (contextOf (record { «in_body_para» = false; «in_note» = false; «in_char» = false })) refl list₀ (z-begun .1 .0)'
WALKED = f'{BEGUN} (z-begun .0) says-begun _ _ _ _ says-walk'
LENT = 'table₀ source₀ tape₀ seen₀ opens₀ list₀'
COUNTED = f'{LENT} (req .1) (z-node-count .0) says-node-count'
THROUGH = f'(through {COUNTED} _ _ _ _ says-checked)'
CHECKED = f'{LENT} (z-check-input .0) (seen-at .n) (opens-at .n) seen-n opens-n says-check-input-number'
REFUSED = f'(refused-so {CHECKED} _ _ told-check-input)'

WALKS = {
    'run': dict(
        calls={
            'link_at': 'some-nodes source₀ tape₀ (req .accepted .sized)',
            'begun': '(first-run req _ says-link-at, says-link-at)',
            'walk': f'walk-asks {BEGUN} _ says-begun',
            'unclosed': f'left-asks {WALKED}',
            'ended': f'end-asks {WALKED} _ _ (says-unclosed .1)'},
        returns=f'ran-whole {WALKED} _ _ (says-unclosed .1) _ _ says-ended'),

    'checked': dict(
        calls={
            'run': 'req',
            'clear_seen': 'seen-inside req $seen _ len-run-seen says-node-count',
            'clear_opens': 'opens-inside req $opens _ len-run-opens says-node-count',
            'reported': 'says-run .low'},
        returns='finished-whole req list₀ $list _ says-run len-run-list _ _ says-node-count (ap (λ (k : ℕ). k / 8) (list-n ∙ sym len-run-list)) (z-run .1 .0) _ (z-run .1 .1 .0) _ len-run-seen len-run-opens says-clear-seen says-clear-opens _ says-reported'),

    'passed': dict(
        calls={'checked': f'part-fit {COUNTED} index₀ entries₀ (req .0)'},
        parts={'seen[..n]': f'part-seen {COUNTED}', 'opens[..n]': f'part-opens {COUNTED}'},
        returns={'answer': f'{THROUGH} .0', 'list': f'{THROUGH} .1 .0', 'seen': f'{THROUGH} .1 .1 .0', 'opens': f'{THROUGH} .1 .1 .1'}),

    'check': dict(
        calls={
            'check_input': 'as-long @index',
            'passed': f'accepted-so {CHECKED} _ told-check-input $index says-check-input-index'},
        arms={
            'Accepted': {'answer': 'says-passed-answer', 'list': 'says-passed-list', 'seen': 'says-passed-seen', 'opens': 'says-passed-opens'},
            'Refused': {'answer': f'{REFUSED} .0', 'list': f'{REFUSED} .1 .0', 'seen': f'{REFUSED} .1 .1 .0', 'opens': f'{REFUSED} .1 .1 .1'}}),
}
