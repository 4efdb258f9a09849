"""Models after edits of the circuit itself: they are those of the edited texts, made anew, bit for bit, and so are refusals."""

import pytest
from random_edits import models_agree
from stabsim.noise import renewing


# The circuit of seed 11 has no model.
@pytest.mark.parametrize("seed", [*range(11), *range(12, 21)])
def test_a_model_that_is_renewed_is_the_one_made_anew(seed, monkeypatch):
    renewals, seen = [], []
    renewed = renewing.renewed
    monkeypatch.setattr("stabsim.session.session.renewed", lambda *its: renewals.append(renewed(*its)) or renewals[-1])
    models_agree(seed, 12, seen)
    # Most of them were renewed.
    assert len(seen) > 2 and 2 * sum(it is not None for it in renewals) > len(seen)
