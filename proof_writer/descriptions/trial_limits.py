"""trial_limits: the check, with open starts of its own."""

LAWS = ['definition::proofs/Filled', 'definition::specs/Outcome', 'validate::specs/Entry']

MADE = '(filled-with 65536 noStart _ #opens)'

WALKS = {
    'checked': dict(
        returns={
            'answer': f'says-check-answer ∙ ap (λ xs. answer (lent table₀ source₀ nodes₀ seen₀ xs list₀)) {MADE}',
            'list': f'says-check-list ∙ ap (λ xs. listAfter (lent table₀ source₀ nodes₀ seen₀ xs list₀)) {MADE}'}),
}
