"""Names of tidal constituents by different offices, for tools/station_from_constants.

A group has names of one constituent. Constituents of the same speed are in one group only if they have the same
equilibrium argument and the same node factor: so MU2 isn't 2MS2, L2 isn't 2MN2, M1 isn't NO1, and H1 isn't MA2.
"""

import re
import unicodedata

GREEK = {'α': 'ALPHA', 'β': 'BETA', 'γ': 'GAMMA', 'δ': 'DELTA', 'ε': 'EPSILON', 'ζ': 'ZETA', 'η': 'ETA', 'θ': 'THETA', 'λ': 'LAMBDA',
         'μ': 'MU', 'ν': 'NU', 'ξ': 'XI', 'π': 'PI', 'ρ': 'RHO', 'σ': 'SIGMA', 'τ': 'TAU', 'υ': 'UPSILON', 'φ': 'PHI', 'χ': 'CHI', 'ψ': 'PSI'}
GROUPS = [
    ('Z0', 'A0', 'MSL'),
    ('LDA2', 'LAMBDA2', 'LAMDA2', 'LABDA2', 'LAM2', 'LA2'),
    ('EPS2', 'EPSILON2', 'E2'), ('GAM2', 'GAMMA2'), ('DEL2', 'DELTA2'),
    ('RHO1', 'RHO', 'RO1'), ('SIG1', 'SIGMA1'), ('THE1', 'THETA1'), ('UPS1', 'UPSILON1'), ('ALP1', 'ALPHA1'), ('BET1', 'BETA1'),
    ('CHI1', 'KHI1'), ('PHI1', 'FI1'), ('3MS2', '3M2S2'),
]


def plain(name):
    """A name in capitals, without spaces, accents and subscripts, and with Greek letters spelled."""
    text = unicodedata.normalize('NFKD', name.strip())
    spelled = ''.join(GREEK.get(letter.lower(), letter) for letter in text if not unicodedata.combining(letter))
    return re.sub(r'[\s_]', '', spelled).upper()


def is_mean(name):
    """Whether this names the mean level."""
    return plain(name) in GROUPS[0]


def finder(names):
    """A function from a name of any office to the one of these names that means the same, or None."""
    known = {}
    for name in names:
        known.setdefault(plain(name), name)
    exact = set(names)

    def find(name):
        if name in exact:
            return name
        word = plain(name)
        group = next((group for group in GROUPS if word in group), ())
        return known.get(word) or next((known[other] for other in group if other in known), None)

    return find
