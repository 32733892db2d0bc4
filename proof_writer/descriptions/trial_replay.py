"""trial_replay: the check, with open starts of its own, and what they hold afterwards."""

LAWS = ['proofs/Inside', 'reference_laws::proofs/Sizes', 'definition::specs/Outcome']
DEFAULTS = {'OpenStart': 'noStart'}

HERE = 'here _ _ _ test-while (req .1)'

WALKS = {
    'put_starts': dict(
        sums={'k + 1': f'more-fits _ _ _ ({HERE}) opens-n (opens-room .0)'},
        inside={'opens[k]': HERE},
        calls={'put_start': 'pair-inside _ _ _ test-while (rw words-len (req .0))'},
        loop=dict(
            changes='k words',
            keeps='Unit {0}',
            measure='n₀ - $k',
            start='tt',
            again='tt',
            less='nearer _ _ test-while'),
        returns='tt'),

    'check_with': dict(
        parts={'opens[..n]': 'req .1'},
        calls={'put_starts': '(req .0, rw @opens (req .1))'},
        returns='tt'),

    'check_filled': dict(
        calls={'check_with': '(req .0, rw @opens (req .1))'},
        returns='tt'),
}
