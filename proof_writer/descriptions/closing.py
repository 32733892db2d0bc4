"""closing: the findings of open openNodes that are left, and the working list of open openNodes cleared."""

LAWS = ['proofs/Starts', 'proofs/Zeroed', 'reference_laws::proofs/Sizes', 'definition::specs/Outcome', 'state::specs/Inner']
DEFAULTS = {'OpenStart': 'noStart'}

COUNTED = 'source₀ tape₀ opens₀ (rec₀ .«open_len») list₀ (countsOf rec₀)'
HERE = 'here _ _ _ test-while req'

WALKS = {
    'unclosed': dict(
        sums={'k + 1': 'more-fits _ _ _ (unclosed-inside kept test-while) opens-n (opens-room .0)'},
        inside={'opens[k]': 'unclosed-inside kept test-while'},
        calls={'push_unclosed': 'unclosed-ready kept test-while'},
        loop=dict(
            changes='c k list',
            keeps=f'UnclosedSoFar {COUNTED} $list $c $k',
            measure='rec₀ .«open_len» - $k',
            start=f'unclosed-none {COUNTED} (z-counts .0) says-counts (req .known) (req .room)',
            again='unclosed-next kept test-while says-push-unclosed',
            less='nearer _ _ test-while'),
        returns='(refl, unclosed-all kept test-while)'),

    'clear_opens': dict(
        sums={'i + 1': f'more-fits _ _ _ ({HERE}) opens-n (opens-room .0)'},
        inside={'opens[i]': HERE},
        loop=dict(
            changes='i opens',
            keeps='($i ≤ n₀) × ($opens ≡ cleared noStart $i opens₀)',
            measure='n₀ - $i',
            start='(omega arith, cleared-none noStart opens₀)',
            again=f'(omega (arith, test-while), cleared-more noStart opens₀ _ _ (kept .1) ({HERE}))',
            less='nearer _ _ test-while'),
        returns='cleared-all noStart opens₀ _ _ _ (kept .1) (kept .0) test-while'),
}
