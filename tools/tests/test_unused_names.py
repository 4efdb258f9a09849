"""Something uses each name of the sources, definitions and lemmas; and the list notices a name that nothing uses."""

import unused_names


def test_each_name_is_used() -> None:
    assert unused_names.unused() == []


def test_a_name_without_a_use_is_noticed() -> None:
    text = "-- a lemma: zero-left\nzero-left : (n : ℕ) → 0 + n ≡ n\nzero-left n = refl\n\npub right : (n : ℕ) → n ≡ n\nright n = used n\n"
    made, used = unused_names.named_in_proofs(text)
    assert made == {"zero-left", "right"}
    assert (used["zero-left"], used["right"], used["used"]) == (0, 0, 1)


def test_a_line_that_begins_with_a_name_uses_it() -> None:
    made, used = unused_names.named_in_proofs("part : Law\npart n =\n  refl\n\nboth : Law × Law\nboth = (\npart n,\n  part n,\n)\n")
    assert made == {"part", "both"}
    assert used["part"] == 2


def test_a_field_and_an_import_are_no_uses() -> None:
    text = "use Rattle.a.{gone}\nrecord Sum (n : ℕ) : Type 0 where\n  pub parts : Parts n\n\ntotal : ℕ\ntotal = sum (total + other)\n"
    made, used = unused_names.named_in_proofs(text)
    assert made == {"Sum", "total"}
    assert (used["gone"], used["Sum"], used["other"]) == (0, 0, 1)
