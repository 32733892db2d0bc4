"""exercise: the check, with open starts of its own."""

LAWS = ['definition::proofs/Filled', 'definition::specs/Outcome', 'validate::specs/Entry']

MADE = '(filled-with 4096 noStart _ #opens)'

WALKS = {
    'checked': dict(
        returns={
            'answer': f'says-check-answer ∙ ap (λ xs. answer (lent table₀ source₀ tape₀ seen₀ xs list₀)) {MADE}',
            'list': f'says-check-list ∙ ap (λ xs. listAfter (lent table₀ source₀ tape₀ seen₀ xs list₀)) {MADE}'}),
}
