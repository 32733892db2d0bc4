"""harkoxin: the functions under C names that hold the open starts."""

LAWS = ['proofs/Reporting', 'validate::proofs/Through', 'definition::specs/Outcome']

LENT = 'table₀ source₀ tape₀ seen₀ opens₀ list₀'
CHECKED = f'{LENT} (z-check-input .0) (seen-at .n) (opens-at .n) seen-n opens-n says-check-input-number'
REFUSED = f'{CHECKED} _ _ told-check-input'
PASSED = f'{LENT} (req-passed .1) (answerOf (z-passed .0)) says-passed-answer (z-passed .1 .1 .1 .0) says-passed-list'

WALKS = {
    'harkoxin_check': dict(
        returns={
            'answer': 'says-write-answer ∙ ap (λ x. over out₀ 0 (answerWords x)) says-check-answer',
            'list': 'says-check-list', 'seen': 'says-check-seen', 'opens': 'says-check-opens'}),

    'harkoxin_report': dict(
        calls={
            'check_input': 'as-long @index',
            'passed': f'accepted-so {CHECKED} _ told-check-input $index says-check-input-index',
            'write_held': f'held-requires {PASSED} _ _ (req-passed .0) len-passed-list'},
        arms={
            'Accepted': {
                'answer': f'held-words {PASSED} out₀ _ (length text₀) says-write-held-answer',
                'list': 'says-write-held-list ∙ says-passed-list', 'seen': 'says-passed-seen', 'opens': 'says-passed-opens',
                'text': f'held-text {PASSED} text₀ _ says-write-held-text',
                'ends': f'held-ends {PASSED} (length text₀) ends₀ _ says-write-held-ends'},
            'Refused': {
                'answer': f'turned-words {REFUSED} out₀ _ (length text₀) says-write-turned-back',
                'list': f'(refused-so {REFUSED}) .1 .0', 'seen': f'(refused-so {REFUSED}) .1 .1 .0', 'opens': f'(refused-so {REFUSED}) .1 .1 .1',
                'text': f'turned-text {REFUSED} text₀',
                'ends': f'turned-ends {REFUSED} (length text₀) ends₀'}}),
}
